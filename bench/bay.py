#!/usr/bin/env python3
"""Frames of several streams, in random histories: what becomes of each, and the scans, by a model over
whole lists, and by `crates/bay_scans`. Usage: bench/bay.py PROGRAM [HISTORIES [SEED]]; or bench/bay.py print, which prints
what the program must print of the input, as the model has it.

The model numbers samples by absolute places: the first frame is at the place of its sample count, and
place p has the count p modulo the rate. It knows, for each stream, the places of its samples; the scans
that are complete come from these places by one formula. It keeps every sample and computes all scans
at the end of a history, not one after the other.
"""
import random
import subprocess
import sys


class Model:
    def __init__(self, rate, late, reach, confirm, limit, streams):
        self.rate, self.late, self.reach, self.confirm, self.limit = rate, late, reach, confirm, limit
        self.samples = [{} for _ in range(streams)]
        self.first = None
        self.astray_in_row = 0

    def ends(self):
        """After the newest sample of each stream."""
        return [max(s) + 1 if s else self.first for s in self.samples]

    def complete(self):
        """The place up to which all is complete: each stream is beyond it, or one is far ahead."""
        ends = self.ends()
        return max(self.first, min(ends), max(ends) - self.limit)

    def frame(self, stream, count, content):
        answer = self.judge(stream, count)
        place = answer[1] if isinstance(answer, tuple) else None
        self.astray_in_row = self.astray_in_row + 1 if answer == 'Astray' else 0
        if place is None:
            return answer, 0
        due = self.due(stream) if self.first is not None else place
        if self.first is None:
            self.first = place
        self.samples[stream][place] = content
        return answer[0], place - due

    def due(self, stream):
        return max(self.ends()[stream], self.complete())

    def judge(self, stream, count):
        if count >= self.rate:
            return 'Invalid'
        if self.first is None:
            return 'Taken', count
        due = self.due(stream)
        ahead = next(p for p in range(due, due + self.rate) if p % self.rate == count)
        behind = ahead - self.rate
        if due - behind <= self.late:
            own = self.samples[stream]
            return 'Repeated' if own and max(own) % self.rate == count else 'Late'
        if ahead - due <= self.reach:
            return 'Taken', ahead
        if self.astray_in_row + 1 >= self.confirm:
            return 'Restarted', ahead
        return 'Astray'

    def scans(self):
        if self.first is None:
            return []
        return [[s.get(p) for s in self.samples] for p in range(self.first, self.complete())]


def history(rng):
    """Settings and frames: what merging units send, and what a network makes of it."""
    rate = rng.choice([2, 3, 5, 8, 10, 20, 50, 80])
    late = rng.randint(1, max(1, min(rate - 1, rng.choice([1, 2, 3, 8]))))
    limit = rng.choice([1, 1, 2, 3, 5, 9])
    reach = limit + rng.choice([0, 0, 1, 3, 10])
    confirm = rng.choice([1, 1, 2, 3, 5])
    streams = rng.choice([1, 1, 2, 2, 3, 4])
    loss, repeat, swap, jump, skew = (rng.choice([0, 0, 0.02, 0.1, 0.3]) for _ in range(5))
    place = [rng.randint(0, rate - 1)] * streams
    frames, content = [], 0
    for _ in range(rng.choice([1, 5, 20, 60, 150])):
        for stream in range(streams):
            if rng.random() < skew:
                continue
            if rng.random() < jump / 5:
                place[stream] += rng.randint(0, rate)
            if rng.random() < jump / 10:
                place[stream] = rng.choice([0, max(place)])
            if rng.random() >= loss:
                content += 1
                frames.append((stream, place[stream] % rate, content))
                if rng.random() < repeat:
                    frames.append((stream, place[stream] % rate, content))
            place[stream] += 1
        if rng.random() < loss / 4:
            place = [p + rng.randint(0, 2 * rate) for p in place]
        if rng.random() < 0.01:
            frames.append((rng.randrange(streams), rng.choice([rate, rate + 7, 65535]), 0))
    for i in range(len(frames) - 1):
        if rng.random() < swap:
            frames[i], frames[i + 1] = frames[i + 1], frames[i]
    return (rate, late, reach, confirm, limit, streams), frames


def words(kind, lost):
    return f'{kind}({lost})' if kind in ('Taken', 'Restarted') else kind


def printed(lines):
    """What the program must print."""
    model, shown = None, 0
    for line in lines:
        numbers = [int(word) for word in line.split()]
        if len(numbers) == 6:
            model, shown = Model(*numbers), 0
            continue
        print(words(*model.frame(*numbers)))
        scans = model.scans()
        for scan in scans[shown:]:
            print(' ' + ' '.join('-' if it is None else str(it) for it in scan))
        shown = len(scans)


def main():
    program = sys.argv[1]
    if program == 'print':
        printed(sys.stdin)
        return 0
    histories = int(sys.argv[2]) if len(sys.argv) > 2 else 1000
    rng = random.Random(int(sys.argv[3]) if len(sys.argv) > 3 else 1)
    runs = [history(rng) for _ in range(histories)]
    text = ''.join(' '.join(map(str, line)) + '\n' for settings, frames in runs for line in [settings, *frames])
    told = subprocess.run([program], input=text.encode(), stdout=subprocess.PIPE, check=True).stdout.decode().splitlines()
    at, wrong, seen, scans_seen = 0, 0, {}, 0
    for settings, frames in runs:
        model, got = Model(*settings), []
        for frame in frames:
            kind, lost = model.frame(*frame)
            want = words(kind, lost)
            seen[kind] = seen.get(kind, 0) + 1
            seen['lost'] = seen.get('lost', 0) + lost
            wrong += told[at] != want
            at += 1
            while at < len(told) and told[at].startswith(' '):
                got.append([None if w == '-' else int(w) for w in told[at].split()])
                at += 1
        wrong += got != model.scans()
        scans_seen += len(got)
    wrong += at != len(told)
    counts = ', '.join(f'{n} {kind}' for kind, n in sorted(seen.items()))
    print(f'{histories} histories, {sum(len(f) for _, f in runs)} frames ({counts}), {scans_seen} scans: {wrong} differences')
    return 1 if wrong else 0


if __name__ == '__main__':
    sys.exit(main())
