"""Four records of three stations in two folders, and the events and lines that they have: python3 records.py FOLDER"""
import os
import sys

sys.path.insert(0, sys.path[0] + "/../../files")
from signals import wave, write  # noqa: E402


def record(stem, station, begun, amperes, unit="A", trip=0.05):
    """100 ms at 1200 Hz; the trigger is 20 ms after the first row, the contact closes at `trip` s."""
    current = [("IA", "A", "", unit, "0.1" if unit == "A" else "0.0001", "0", "0", wave(50, amperes, 90))]
    write(stem, "1200", 50, current, 120, trigger=24, contacts=[("Trip", lambda t: t >= trip - 1e-9)], names=station + ",Bay 1", begun=begun)


def main(folder):
    os.makedirs(f"{folder}/year/month/day")
    record(f"{folder}/a", "Hill", "10:30:00", 400)
    record(f"{folder}/b", "Dale", "10:30:10", 3000)
    record(f"{folder}/year/c", "Hill North", "10:30:20", 2, "kA")
    record(f"{folder}/year/month/day/d", "Hill", "10:30:30", 500, trip=9)
    with open(f"{folder}/bus.csv", "w") as out:
        out.write("instant,station,device,channel,id,state,is,changes,lost,scan\n"
                  "2024-07-01 10:30:05.000000,Hill,Bay 2,1,Door,1,off-normal,1,0,12\n"
                  "2024-07-01 10:30:06.000000,Dale,Bay 2,1,Door,0,normal,1,0,13\n"
                  ",Hill,Bay 2,,,,missing,3,,\n")


main(sys.argv[1])
