"""Records whose rms values are known: python3 records.py FOLDER"""
import sys

sys.path.insert(0, sys.path[0] + "/../../files")
from signals import then, wave, write  # noqa: E402


def feeder(f, at):
    """Two voltages and two currents, of which the first of each change at an instant."""
    return [
        ("UA", "A", "", "kV", "0.003", "0", "0", then(at, wave(f, 63.508, 0), wave(f, 28.6, -8))),
        ("UB", "B", "", "kV", "0.003", "0", "0", wave(f, 63.508, -120)),
        ("IA", "A", "", "A", "0.2", "0", "0", then(at, wave(f, 300, -20), wave(f, 4000, -80))),
        ("IB", "B", "", "A", "0.02", "0", "0", wave(f, 300, -143)),
    ]


def main(folder):
    # the trigger is 5 ms after the inception
    write(f"{folder}/late", "960", "50", feeder(50, 0.1), 240, trigger=round(0.105 * 960))
    write(f"{folder}/sixty", "800", "60", feeder(60, 0.1), 200, trigger=80)
    # a reading is missing in the first cycle after the inception
    write(f"{folder}/missing", "960", "50", feeder(50, 0.1), 240, trigger=96, missing={(100, 0), (100, 1), (100, 2), (100, 3)})
    # without an inception: around the trigger
    write(f"{folder}/steady", "960", "50", feeder(50, 9), 240, trigger=120)
    # one cycle and a half before the inception
    write(f"{folder}/brief", "960", "50", feeder(50, 0.03), 96, trigger=29)


main(sys.argv[1])
