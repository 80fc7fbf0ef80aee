"""Compares what `comtrade fault --json` printed with what is true of simulated records."""

import json
import os
import subprocess

CLEARING_MS = 0.5


class Tally:
    """What was counted, and a line for each difference."""

    def __init__(self):
        self.counts, self.lines = {}, []

    def count(self, name, is_right, line=""):
        right, all_of = self.counts.get(name, (0, 0))
        self.counts[name] = right + bool(is_right), all_of + 1
        if not is_right and line:
            self.lines.append(f"{name}: {line}")

    def least(self, names):
        """Whether so many are right of each, and the lines where that is not so."""
        out = []
        for name, wanted in names.items():
            right, all_of = self.counts.get(name, (0, 0))
            out.append(f"{name}, at least {wanted} of {all_of}: {'yes' if right >= wanted else f'only {right}'}\n")
            if right < wanted:
                out += [f"  {line}\n" for line in self.lines if line.startswith(name + ":")]
        return "".join(out)

    def text(self):
        return "".join(f"{name}: {right} of {all_of}\n" for name, (right, all_of) in self.counts.items())


def printed_by(program, folder):
    """The records that the program printed, by their names without folder and ending."""
    run = subprocess.run([program, "fault", "--json", folder], stdout=subprocess.PIPE, check=True)
    records = json.loads(run.stdout)["records"]
    return {os.path.basename(it["record"]).rsplit(".", 1)[0]: it for it in records}


def judge_fault(tally, name, rate, truth, found):
    """One fault that was found, against the true one. An evolving fault has the type of its first cycle."""
    kind, wanted = found["fault"], truth.get("stages", [truth])[0]["type"]
    shown = f"{name}: {kind} for {wanted}, doubts {found['doubts']}"
    tally.count("type right", kind == wanted, shown)
    tally.count("no wrong type without a doubt", kind == wanted or found["doubts"], shown)
    late = found["inception_ms"] - truth["inception_ms"]
    tally.count("inception within two rows", -0.1 <= late * rate / 1000 <= 2.1, f"{name}: {late:+.3f} ms, {late * rate / 1000:+.2f} rows")
    if found["cleared_ms"] is None:
        tally.count("clearing within half a millisecond or a row", False, f"{name}: none")
        return
    late = found["cleared_ms"] - truth["cleared_ms"]
    most = max(CLEARING_MS, 1100 / rate)
    tally.count("clearing within half a millisecond or a row", abs(late) <= most, f"{name}: {late:+.3f} ms at {rate}/s, {wanted}")


def judge_times(tally, name, record, truth, found):
    """Trip and breaker time, to two rows or half a millisecond each; none where the record has no contacts."""
    rate = record["rate"]
    trip = (found["trip"] or {}).get("after_ms")
    if not record["contacts"]:
        tally.count("no trip time without contacts", trip is None and found["breaker_ms"] is None, f"{name}: {trip}")
        return
    wanted = truth["trip_ms"] - truth["inception_ms"]
    most = max(CLEARING_MS, 2100 / rate)
    tally.count("trip time", trip is not None and abs(trip - wanted) <= most, f"{name}: {trip} for {wanted:.3f}")
    if found["cleared_ms"] is not None:
        took = truth["cleared_ms"] - truth["trip_ms"]
        told = found["breaker_ms"]
        tally.count("breaker time", told is not None and abs(told - took) <= most, f"{name}: {told} for {took:.3f}")


def judge_reclose(tally, name, truth, found):
    wanted = truth["reclose"]["success"]
    told = (found[0].get("reclose") or {}).get("holds") if found else None
    tally.count("reclose and its success", told == wanted, f"{name}: {told} for {wanted}")


def judge(program, folder):
    with open(os.path.join(folder, "answers.json"), encoding="ascii") as file:
        answers = json.load(file)
    printed, tally = printed_by(program, folder), Tally()
    for name, truth in answers.items():
        found = printed[name]["faults"]
        if truth["kind"] != "fault":
            tally.count("no fault in " + truth["kind"], not found, f"{name}: {[it['fault'] for it in found]}")
            continue
        tally.count("found", len(found) == len(truth["faults"]), f"{name}: {len(found)} for {len(truth['faults'])}")
        if not found:
            tally.count("type right", False, f"{name}: no fault for {truth['faults'][0]['type']}: {printed[name]['none']}")
        else:
            judge_fault(tally, name, truth["rate"], truth["faults"][0], found[0])
            judge_times(tally, name, truth, truth["faults"][0], found[0])
        if truth["faults"][0].get("reclose") and truth["contacts"]:
            judge_reclose(tally, name, truth["faults"][0], found)
    return tally
