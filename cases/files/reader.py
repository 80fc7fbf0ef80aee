"""A pair of ASCII files as rows with instants, read by the standard's layout alone: what cases compare the program with."""
import sys
from datetime import datetime, timedelta


class Record:
    def __init__(self, stem):
        lines = open(stem + ".cfg", newline="").read().split("\r\n")
        self.station, self.device = lines[0].split(",")[:2]
        _, analog, status = lines[1].split(",")
        self.analog = [lines[2 + i].split(",") for i in range(int(analog[:-1]))]
        at = 2 + len(self.analog)
        self.status = [lines[at + i].split(",") for i in range(int(status[:-1]))]
        at += len(self.status) + 1
        nrates = int(lines[at])
        self.rates = [(float(x), int(n)) for x, n in (line.split(",") for line in lines[at + 1:at + 1 + max(nrates, 1)])]
        at += 1 + max(nrates, 1)
        self.first, self.trigger = (self.instant(line) for line in lines[at:at + 2])
        timemult = float(lines[at + 3])
        self.rows = [line.split(",") for line in open(stem + ".dat", newline="").read().split("\r\n") if line.strip("\x1a")]
        # nanoseconds since the first row: by the rates where there are any, else by the stamps
        self.nanos, done, begun, left = [], 0, 0, list(self.rates)
        for i, row in enumerate(self.rows):
            if nrates and all(rate > 0 for rate, _ in self.rates):
                while i >= left[0][1]:
                    done += int((left[0][1] - begun) * 10 ** 9 / left[0][0])
                    begun = left.pop(0)[1]
                self.nanos.append(done + int((i - begun) * 10 ** 9 / left[0][0]))
            else:
                self.nanos.append(int(int(row[1]) * timemult * 1000))
        offset = round((self.trigger - self.first) / timedelta(microseconds=1)) * 1000
        self.since = [nanos - offset for nanos in self.nanos]

    @staticmethod
    def instant(line):
        return datetime.strptime(line, "%d/%m/%Y,%H:%M:%S.%f")

    def at(self, since):
        return self.trigger + timedelta(microseconds=(since + 500) // 1000)

    def events(self):
        """(instant, nanoseconds since the trigger, text), in the order of time."""
        found = [(self.trigger, 0, 0, f"trigger of {self.station.strip()}, {self.device.strip()}")]
        width = 2 + len(self.analog)
        for k, channel in enumerate(self.status):
            for i in range(1, len(self.rows)):
                bit = self.rows[i][width + k]
                if bit != self.rows[i - 1][width + k]:
                    found.append((self.at(self.since[i]), self.since[i], i + 1, f"D{k + 1} {channel[1]} {bit}"))
        missing = [sum(cell in ("", "99999") for cell in row[2:width]) for row in self.rows]
        i = 0
        while i < len(missing):
            if missing[i]:
                end = i
                while end + 1 < len(missing) and missing[end + 1]:
                    end += 1
                most = max(missing[i:end + 1])
                text = f"readings of {most} channel{'s' if most != 1 else ''} missing, rows {i + 1} to {end + 1}"
                found.append((self.at(self.since[i]), self.since[i], i + 1, text))
                i = end
            i += 1
        return sorted(found, key=lambda event: (event[1], event[2]))


def millis(nanos):
    us = (abs(nanos) + 500) // 1000
    return ("-" if nanos < 0 and us else "") + f"{us // 1000}.{us % 1000:03d}"


if __name__ == "__main__":
    before = None
    for at, since, _, text in Record(sys.argv[1]).events():
        between = "" if before is None else millis(since - before)
        print("|".join([at.strftime("%Y-%m-%d %H:%M:%S.%f"), millis(since), between, text]))
        before = since
