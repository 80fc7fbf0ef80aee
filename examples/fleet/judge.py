#!/usr/bin/env python3
"""Compares results of analyse.py with what the records were made with: judge.py TRUTH RESULTS"""
import csv
import sys


def main(truth_name, results_name):
    with open(truth_name, encoding="utf-8") as file:
        truth = {line[0]: (line[1], *map(float, line[2:])) for line in csv.reader(file)}
    with open(results_name, encoding="utf-8") as file:
        results = list(csv.DictReader(file))
    wrong = [line["name"] for line in results if not is_right(line, *truth[line["name"]])]
    wrong += sorted(set(truth) - {line["name"] for line in results})
    for name in wrong[:10]:
        print("differs:", name)
    print(f"{len(truth)} records judged, {len(wrong)} differ")
    return bool(wrong)


def is_right(line, channel, before, fault, inception, duration):
    """Rms values to 1 percent; the inception to 3 ms, as it can fall on a zero crossing; the
    duration to a cycle more, since the rms value falls within a cycle after the fault."""
    return (
        line["channel"] == channel
        and abs(float(line["rms_before"]) / before - 1) < 0.01
        and abs(float(line["rms_greatest"]) / fault - 1) < 0.01
        and abs(float(line["inception_ms"] or 1e9) - inception) < 3
        and -3 < float(line["duration_ms"]) - duration < 20
    )


if __name__ == "__main__":
    sys.exit(main(sys.argv[1], sys.argv[2]))
