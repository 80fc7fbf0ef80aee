"""Files of other revisions and makers, by the values from which examples/relays were made; and the names of the package `comtrade`."""
import datetime
import importlib.util
import warnings
from pathlib import Path

import dfr_comtrade
import pytest

ROOT = Path(__file__).resolve().parents[2]
RELAYS, PAIRS = ROOT / "examples" / "relays", ROOT / "examples" / "embedding" / "pairs"
_SPEC = importlib.util.spec_from_file_location("relays", RELAYS / "make.py")
relays = importlib.util.module_from_spec(_SPEC)
_SPEC.loader.exec_module(relays)


def read(name, **more):
    with pytest.warns(dfr_comtrade.RepairWarning):
        return dfr_comtrade.read(RELAYS / name, **more)


@pytest.mark.parametrize("name, year, kind, keys", [
    ("RELAY91", "1991", "ASCII", {"revision-1991", "sides-absent", "years-2-digits", "dates-mdy"}),
    ("merging", "2013", "FLOAT32", {"revision-2013", "lines-2013-dropped", "kind-float32", "values-rounded"}),
    ("single.cff", "2013", "ASCII", {"cff", "inf-dropped", "hdr-dropped", "revision-2013", "lines-2013-dropped"}),
    ("semicolon", "1999", "ASCII", {"separator-semicolon", "decimal-comma"}),
    ("returns", "1999", "ASCII", {"line-ends-crcr"}),
])
def test_relays(name, year, kind, keys):
    record = read(name)
    assert {note.split(":")[0] for note in record.notes} == keys
    assert (record.rev_year, record.ft, len(record)) == (year, kind, relays.ROWS)
    for (ident, phase, unit), values in zip(relays.ANALOG, relays.VALUES):
        channel = record.analog[ident]
        assert (channel.phase, channel.unit) == (phase, unit)
        assert max(abs(a - b) for a, b in zip(channel.values, values)) <= 0.500001 * relays.STEPS[unit]
    for ident, bits in zip(relays.STATUS, relays.BITS):
        assert list(record.status[ident].bits) == bits


def test_choices():
    record = read("RELAY91", dates="mdy")
    assert record.first == datetime.datetime(1996, 5, 23, 14, 7, 31, 120000)
    with pytest.raises(dfr_comtrade.CfgFault):
        dfr_comtrade.read(RELAYS / "RELAY91", dates="dmy")
    for more in ({"dates": "ymd"}, {"encoding": "runes"}):
        with pytest.raises(ValueError):
            dfr_comtrade.read(RELAYS / "RELAY91", **more)


def test_encodings():
    cfg, dat = (PAIRS / "plain.cfg").read_bytes(), (PAIRS / "plain.dat").read_bytes()
    cyrillic = "\u0417\u0430\u043f\u0430\u0434"
    for name, text, spelled in (("cp437", "Z\xfcrich", "Zuerich"), (None, "Z\xfcrich", "Zuerich"), ("windows-1251", cyrillic, "?????")):
        given = cfg.replace(b"Northfield 110 kV", text.encode(name or "utf-8"))
        with pytest.warns(dfr_comtrade.RepairWarning):
            record = dfr_comtrade.read_bytes(given, dat, encoding=name)
        assert record.station == spelled  # texts of 1999 are in ASCII
        assert record.notes == [f'texts-not-ascii: non-ASCII characters were spelled in ASCII (line 1: "{text}" became "{spelled}")']


def test_a_cut_row_is_told():
    cfg, dat = (PAIRS / "plain.cfg").read_bytes(), (PAIRS / "plain.dat").read_bytes()
    with pytest.warns(dfr_comtrade.RepairWarning, match="row-cut"):
        record = dfr_comtrade.read_bytes(cfg, dat[:-1])
    assert len(record) == 49 and any(note.startswith("row-cut:") for note in record.notes)


def test_exact_pairs_have_no_notes():
    for name in ("plain", "many"):
        with warnings.catch_warnings():
            warnings.simplefilter("error")
            record, same = dfr_comtrade.read(PAIRS / name), dfr_comtrade.read(PAIRS / name, exact=True)
        assert record.notes == [] == same.notes and (record.station, record.first, len(record)) == (same.station, same.first, len(same))
        assert [list(c.samples) for c in record.analog] == [list(c.samples) for c in same.analog]


def test_the_names_of_the_package_comtrade():
    for rec in (dfr_comtrade.load(PAIRS / "plain.cfg"), dfr_comtrade.Comtrade(ignore_warnings=True)):
        rec.load(str(PAIRS / "plain.cfg"), str(PAIRS / "plain.dat"))
        assert (rec.station_name, rec.rec_dev_id, rec.rev_year, rec.ft) == ("Northfield 110 kV", "Example", "1999", "BINARY")
        assert (rec.analog_count, rec.status_count, rec.digital_count, rec.channels_count, rec.total_samples) == (3, 1, 1, 4, 50)
        assert rec.analog_channel_ids == ["UA", "IA", "IB"] and rec.status_channel_ids == rec.digital_channel_ids == ["Breaker open"]
        assert rec.analog_phases == ["A", "A", "B"] and rec.status_phases == [""]
        assert rec.analog[0][5] == 0.01 * 9005 + 0.5 and list(rec.status[0]) == list(rec.digital[0]) == [0] * 30 + [1] * 20
        assert rec.time[2] == 0.002 and rec.trigger_time == 0.02 and rec.time_base == 1e-6 and rec.frequency == 50.0
        assert rec.start_timestamp == datetime.datetime(2024, 2, 29, 23, 59, 59, 990000) and rec.hdr is None and rec.inf is None
        channel = rec.cfg.analog_channels[0]
        assert (channel.n, channel.name, channel.ph, channel.ccbm, channel.uu, channel.a, channel.b) == (1, "UA", "A", "Line 3", "kV", 0.01, 0.5)
        assert (channel.cmin, channel.cmax, channel.primary, channel.secondary, channel.pors) == (-32767, 32767, 1.0, 1.0, "P")
        assert (rec.cfg.status_channels[0].name, rec.cfg.status_channels[0].y) == ("Breaker open", 0)
        assert rec.cfg.sample_rates == [[1000.0, 50]] and rec.cfg.filepath == str(PAIRS / "plain.cfg")
        assert rec.cfg_summary().splitlines()[:3] == ["Channels (total,A,D): 3A + 1D = 4", "Line frequency: 50.0 Hz", "Sample rate of 1000.0 Hz to the sample #50"]


def test_the_same_names_over_other_files(tmp_path):
    with pytest.warns(dfr_comtrade.RepairWarning):
        rec = dfr_comtrade.load(RELAYS / "single.cff")
    assert rec.inf.splitlines()[0] == "[Public Record_Information]" and rec.hdr.startswith("Phase A to ")
    quiet = dfr_comtrade.Comtrade(ignore_warnings=True)
    with warnings.catch_warnings():
        warnings.simplefilter("error")
        quiet.load(RELAYS / "merging.cfg")
    assert quiet.ft == "FLOAT32" and abs(quiet.analog[3][0] - relays.VALUES[3][0]) < 0.3
    for ending in ("cfg", "dat"):
        (tmp_path / f"x.{ending}").write_bytes((PAIRS / f"plain.{ending}").read_bytes())
    (tmp_path / "x.hdr").write_text("a breaker that trips")
    assert dfr_comtrade.load(tmp_path / "x.cfg").hdr == "a breaker that trips"
    read = dfr_comtrade.Comtrade()
    with pytest.raises(ValueError):
        read.station_name
    read.read((PAIRS / "many.cfg").read_text(), (PAIRS / "many.dat").read_text())
    assert read.analog_count == 64
