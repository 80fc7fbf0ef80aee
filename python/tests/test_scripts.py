"""Scripts written for the package `comtrade` run with only their import changed, on ASCII, BINARY and FLOAT32 data and on single files."""
import importlib.util
import subprocess
import sys
from pathlib import Path

import pytest

PYTHON = Path(__file__).resolve().parents[1]
RELAYS, PAIRS = PYTHON.parent / "examples" / "relays", PYTHON.parent / "examples" / "embedding" / "pairs"
_SPEC = importlib.util.spec_from_file_location("relays", RELAYS / "make.py")
relays = importlib.util.module_from_spec(_SPEC)
_SPEC.loader.exec_module(relays)

# the first lines of a script that plots, without the plot
SHOWN = """
import sys
import comtrade

rec = comtrade.Comtrade()
rec.load(*sys.argv[1:])
print("Trigger time = {}s".format(rec.trigger_time))
for k in range(rec.analog_count):
    print(rec.analog_channel_ids[k], rec.analog_phases[k], rec.cfg.analog_channels[k].uu, len(rec.time), "%.2f" % max(rec.analog[k]))
for k in range(rec.status_count):
    print(rec.status_channel_ids[k], sum(rec.status[k]))
"""

# a script that makes a list of files
LISTED = """
import sys
from comtrade import Comtrade

rec = Comtrade(ignore_warnings=True)
rec.load(sys.argv[1])
print(rec.station_name, rec.rec_dev_id, rec.rev_year, rec.ft, rec.frequency, rec.channels_count, rec.total_samples, sep=";")
print(rec.start_timestamp.isoformat(), rec.trigger_timestamp.isoformat(), rec.cfg.nrates, rec.cfg.sample_rates[0], rec.time_base)
"""

# a script that opens files by itself, and computes values from samples
READ = """
import sys
import comtrade

rec = comtrade.Comtrade()
with open(sys.argv[1]) as cfg, open(sys.argv[2], "rb") as dat:
    rec.read(cfg.read(), dat.read())
channel = rec.cfg.analog_channels[0]
print(channel.n, channel.name, channel.a, channel.b, channel.cmin, channel.cmax, channel.primary, channel.secondary, channel.pors)
print(rec.cfg_summary().splitlines()[-1], [round(rec.time[k] * 1e6) for k in (0, 1, -1)], rec.analog[0][0])
"""


def run(script, *files):
    changed = script.replace("import comtrade\n", "import dfr_comtrade as comtrade\n").replace("from comtrade import", "from dfr_comtrade import")
    words = [sys.executable, "-B", "-c", f"import sys; sys.path.insert(0, {str(PYTHON)!r})\n{changed}", *map(str, files)]
    done = subprocess.run(words, stdout=subprocess.PIPE, stderr=subprocess.PIPE, text=True)
    assert done.returncode == 0, done.stderr
    return done.stdout.splitlines()


@pytest.mark.parametrize("files", [("RELAY91.CFG", "RELAY91.DAT"), ("merging.cfg", "merging.dat"), ("single.cff",), ("returns.cfg",)])
def test_relays(files):
    lines = run(SHOWN, *(RELAYS / name for name in files))
    assert lines[0] == "Trigger time = 0.06s"
    for line, (ident, phase, unit), values in zip(lines[1:], relays.ANALOG, relays.VALUES):
        found = line.split(" ")
        assert found[:-1] == [ident, phase, unit, str(relays.ROWS)]
        assert abs(float(found[-1]) - max(values)) <= 0.0051 + relays.STEPS[unit]
    assert lines[1 + len(relays.ANALOG) :] == [f"{ident} {sum(bits)}" for ident, bits in zip(relays.STATUS, relays.BITS)]


def test_binary_and_ascii_of_1999():
    assert run(SHOWN, PAIRS / "plain.cfg", PAIRS / "plain.dat")[:2] == ["Trigger time = 0.02s", "UA A kV 50 90.95"]
    lines = run(LISTED, PAIRS / "plain.cfg")
    assert lines == ["Northfield 110 kV;Example;1999;BINARY;50.0;4;50", "2024-02-29T23:59:59.990000 2024-03-01T00:00:00.010000 1 [1000.0, 50] 1e-06"]
    assert run(LISTED, PAIRS / "many.cfg")[0].split(";")[2:4] == ["1999", "ASCII"]
    lines = run(READ, PAIRS / "plain.cfg", PAIRS / "plain.dat")
    assert lines == ["1 UA 0.01 0.5 -32767 32767 1.0 1.0 P", "BINARY format [0, 1000, 49000] 0.5"]


def test_a_list_of_other_files():
    assert run(LISTED, RELAYS / "single.cff")[0].split(";")[2:4] == ["2013", "ASCII"]
    assert run(LISTED, RELAYS / "merging.cfg")[0].split(";")[2:4] == ["2013", "FLOAT32"]
    assert run(LISTED, RELAYS / "RELAY91.CFG")[0].split(";")[2:4] == ["1991", "ASCII"]
