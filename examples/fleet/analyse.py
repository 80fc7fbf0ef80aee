#!/usr/bin/env python3
"""Analyses all records of a folder on many processors or machines, into one CSV file.

    analyse.py [--scheduler ADDRESS | --workers N] [--batch N] FOLDER RESULTS

FOLDER is searched with its subfolders for .cfg files. Every worker must see it under this path.
ADDRESS is that of a Dask scheduler, such as tcp://collector:8786; without one, N worker processes
are started on this machine. A task is a batch of N records. RESULTS gets a line for each record, in
the order of the names, whatever machine analysed it.

Dask does the work of sending tasks to machines, and dfr_comtrade reads the records.
"""
import argparse
import csv
import os
import sys
import time
from pathlib import Path

FIELDS = (
    "name", "station", "device", "trigger", "rows", "milliseconds", "channel", "unit",
    "rms_before", "rms_greatest", "inception_ms", "duration_ms", "status_changes", "error",
)


def measured(record, channel):
    """Rms values of a current before and in its fault, when this began, and how long it was.

    The fault is where the rms value of the last cycle is 1.5 times that of the first cycle, or
    more. It begins where a sample first differs from the one a cycle before by a quarter of the
    greatest amplitude."""
    import numpy

    values, times = channel.values, record.times
    cycle = max(1, round(record.rates[0].samp / record.line_freq))
    if len(values) <= cycle:
        return {}
    sums = numpy.concatenate(([0.0], numpy.cumsum(values * values)))
    rms = numpy.sqrt((sums[cycle:] - sums[:-cycle]) / cycle)
    said = {"rms_before": round(float(rms[0]), 3), "rms_greatest": round(float(rms.max()), 3)}
    if rms.max() >= 1.5 * rms[0]:
        steps = numpy.abs(values[cycle:] - values[:-cycle])
        first = int(numpy.argmax(steps > 0.25 * numpy.sqrt(2) * rms.max())) + cycle
        high = numpy.nonzero(rms >= 1.5 * rms[0])[0]
        trigger = record.trigger_time
        said["inception_ms"] = round(1e3 * (float(times[first]) - trigger), 3)
        said["duration_ms"] = round(1e3 * float(times[high[-1] + cycle - 1] - times[first]), 3)
    return said


def changes(channel):
    import numpy

    return int(numpy.count_nonzero(numpy.diff(channel.bits)))


def analyse(name):
    """The line of results of one record; an error is a result too."""
    import dfr_comtrade

    try:
        record = dfr_comtrade.read(name, exact=True)
        said = {
            "name": name,
            "station": record.station,
            "device": record.device,
            "trigger": record.trigger.isoformat(),
            "rows": len(record),
            "milliseconds": round(1e3 * float(record.times[-1]), 3),
            "status_changes": sum(changes(channel) for channel in record.status),
        }
        currents = [channel for channel in record.analog if channel.unit in ("A", "kA")]
        if currents:
            results = [measured(record, channel) for channel in currents]
            worst = max(range(len(currents)), key=lambda k: results[k].get("rms_greatest", 0.0))
            said.update(channel=currents[worst].id, unit=currents[worst].unit, **results[worst])
        return said
    except (OSError, IndexError, MemoryError, ValueError, dfr_comtrade.ComtradeError) as error:
        return {"name": name, "error": f"{type(error).__name__}: {error}"}


def analyse_batch(names):
    return [analyse(name) for name in names]


def client_of(asked):
    from distributed import Client, LocalCluster

    if asked.scheduler:
        return Client(asked.scheduler)
    cluster = LocalCluster(
        n_workers=asked.workers, threads_per_worker=1, processes=True, dashboard_address=None
    )
    return Client(cluster)


def main():
    parser = argparse.ArgumentParser(description=__doc__.split("\n")[0])
    parser.add_argument("--scheduler", metavar="ADDRESS")
    parser.add_argument("--workers", type=int, default=os.cpu_count(), metavar="N")
    parser.add_argument("--batch", type=int, default=50, metavar="N")
    parser.add_argument("folder", metavar="FOLDER")
    parser.add_argument("results", metavar="RESULTS")
    asked = parser.parse_args()

    names = sorted(str(path) for path in Path(asked.folder).resolve().rglob("*.[cC][fF][gG]"))
    if not names:
        sys.exit(f"analyse.py: found no .cfg file in {asked.folder}")
    batches = [names[k : k + asked.batch] for k in range(0, len(names), asked.batch)]
    with client_of(asked) as client:
        client.wait_for_workers(1 if asked.scheduler else asked.workers)
        begun = time.monotonic()
        results = client.gather(client.map(analyse_batch, batches, pure=False))
        taken = time.monotonic() - begun
    lines = [line for batch in results for line in batch]
    with open(asked.results, "w", newline="", encoding="utf-8") as file:
        out = csv.DictWriter(file, FIELDS, restval="", lineterminator="\n")
        out.writeheader()
        out.writerows(lines)
    wrong = sum("error" in line for line in lines)
    print(f"{len(lines)} records, {wrong} with an error, {taken:.1f} s, {len(lines) / taken:.0f}/s")


if __name__ == "__main__":
    main()
