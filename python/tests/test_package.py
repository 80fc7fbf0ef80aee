"""The package over the library: reading, writing, faults, and the names that users of other readers know."""
import datetime
import math
from pathlib import Path

import dfr_comtrade
import pytest

PAIRS = Path(__file__).resolve().parents[2] / "examples" / "embedding" / "pairs"
FIRST = datetime.datetime(2024, 2, 29, 23, 59, 59, 990000)


@pytest.fixture
def plain():
    return dfr_comtrade.read(PAIRS / "plain.cfg")


def test_read(plain):
    assert (plain.station, plain.device, len(plain), plain.binary) == ("Northfield 110 kV", "Example", 50, True)
    assert plain.analog.keys() == ["UA", "IA", "IB"] and "UA" in plain.analog and "UB" not in plain.analog
    ua, ia = plain.analog["UA"], plain.analog[1]
    assert (ua.unit, ua.phase, ua.component, ua.a, ua.b, ua.min, ua.max) == ("kV", "A", "Line 3", 0.01, 0.5, -32767, 32767)
    assert ua.samples[5] == 9005 and ua.values[5] == 0.01 * 9005 + 0.5 and ua[5] == ua.values[5]
    assert ia.samples[10] == dfr_comtrade.NO_SAMPLE and math.isnan(ia.values[10]) and ia.values[1] == -0.25 * ia.samples[1]
    assert list(plain.status["Breaker open"].bits) == [0] * 30 + [1] * 20
    assert plain.first == FIRST and plain.trigger == datetime.datetime(2024, 3, 1, 0, 0, 0, 10000)
    assert plain.rates == [(1000.0, 50)] and list(plain.times_ns[:3]) == [0, 10**6, 2 * 10**6] and plain.times[2] == 0.002


def test_names_of_other_readers(plain):
    assert (plain.station_name, plain.rec_dev_id) == ("Northfield 110 kV", "Example")
    assert plain.analog_channel_ids == ["UA", "IA", "IB"] and plain.status_channel_ids == ["Breaker open"]
    assert (plain.analog_count, plain.status_count, plain.total_samples, plain.frequency, plain.ft) == (3, 1, 50, 50.0, "BINARY")
    assert (plain.rev_year, plain.channels_count) == ("1999", 4) and dfr_comtrade.Record.to_dataframe is dfr_comtrade.Record.to_pandas
    assert plain.start_timestamp == FIRST and plain.trigger_timestamp == plain.trigger and plain.trigger_time == 0.02
    assert list(plain.time) == list(plain.times) and plain.analog[0][5] == plain.analog["UA"].values[5]


@pytest.mark.parametrize("name", ["plain", "many", "rates"])
def test_written_again(name, tmp_path):
    dfr_comtrade.write(tmp_path / "again.cfg", dfr_comtrade.read(PAIRS / f"{name}.cfg", exact=True))
    for ending in (".cfg", ".dat"):
        assert (tmp_path / "again").with_suffix(ending).read_bytes() == (PAIRS / name).with_suffix(ending).read_bytes()


def test_write_from_arrays(tmp_path):
    ia = dfr_comtrade.Analog("IA", [1, 2, dfr_comtrade.NO_SAMPLE], unit="A", a=0.1)
    trip = dfr_comtrade.Status("Trip", [0, 1, 1])
    for binary in (True, False):
        words = {"first": FIRST, "station": "S", "line_freq": 60.0, "stamps": [0, 500, 1000], "binary": binary}
        dfr_comtrade.write(tmp_path / "x.cfg", [ia], [trip], overwrite=not binary, **words)
        rec = dfr_comtrade.read(tmp_path / "x.cfg")
        assert list(rec.analog["IA"].samples) == [1, 2, dfr_comtrade.NO_SAMPLE] and list(rec.status["Trip"].bits) == [0, 1, 1]
        assert rec.analog["IA"].a == 0.1 and rec.line_freq == 60.0 and rec.station == "S" and rec.binary == binary
        assert rec.nrates == 0 and list(rec.times_ns) == [0, 500_000, 1_000_000] and list(rec.stamps) == [0, 500, 1000]


def test_names_with_dots(plain, tmp_path):
    name = "20240701T103000.350625-1"
    dfr_comtrade.write(tmp_path / name, plain)
    assert sorted(path.name for path in tmp_path.iterdir()) == [name + ".cfg", name + ".dat"]
    assert len(dfr_comtrade.read(tmp_path / name)) == len(dfr_comtrade.read(tmp_path / (name + ".dat"))) == 50


def test_nothing_is_overwritten(plain, tmp_path):
    (tmp_path / "x.dat").write_bytes(b"")
    with pytest.raises(FileExistsError) as found:
        dfr_comtrade.write(tmp_path / "x.CFG", plain)
    assert found.value.filename == str(tmp_path / "x.dat") and [path.stat().st_size for path in tmp_path.iterdir()] == [0]
    with pytest.raises(dfr_comtrade.WriteFault):
        dfr_comtrade.write(tmp_path / "x", plain, station="a,b", overwrite=True)
    assert [path.stat().st_size for path in tmp_path.iterdir()] == [0]
    dfr_comtrade.write(tmp_path / "x", plain, overwrite=True)
    assert len(dfr_comtrade.read(tmp_path / "X")) == 50


def test_files_that_are_not_read_exactly(tmp_path):
    cfg, dat = (PAIRS / "plain.cfg").read_bytes(), (PAIRS / "plain.dat").read_bytes()
    first, rest = cfg.split(b"\n", 1)
    for year in (b"", b",1991", b",2013"):
        with pytest.raises(dfr_comtrade.CfgFault, match="run: comtrade import FILE NAME first") as found:
            dfr_comtrade.read_bytes(first.rstrip().rsplit(b",", 1)[0] + year + b"\r\n" + rest, dat, exact=True)
        assert found.value.line == 1
    (tmp_path / "x.cff").write_bytes(b"--- file type: CFG ---\r\n" + cfg)
    for name in ("x", "x.cff"):
        with pytest.raises(dfr_comtrade.CfgFault, match="single file .*; run: comtrade import FILE NAME first"):
            dfr_comtrade.read(tmp_path / name, exact=True)


@pytest.mark.parametrize("number", [0.1, 1e-5, 1 / 3, -123456.789, 5e-324, 1e30, 0.0])
def test_doubles_come_back(number):
    cfg, dat = dfr_comtrade.write_bytes([dfr_comtrade.Analog("x", [1], a=number)], [], first=FIRST, rates=[(50.0, 1)]) if number != 5e-324 else (None, None)
    if cfg is None:  # more places than a file's decimal has
        with pytest.raises(dfr_comtrade.WriteFault):
            dfr_comtrade.write_bytes([dfr_comtrade.Analog("x", [1], a=number)], [], first=FIRST, rates=[(50.0, 1)])
    else:
        assert dfr_comtrade.read_bytes(cfg, dat).analog[0].a == number


def test_faults():
    cfg, dat = (PAIRS / "plain.cfg").read_bytes(), (PAIRS / "plain.dat").read_bytes()
    with pytest.raises(dfr_comtrade.CfgFault) as found:
        dfr_comtrade.read_bytes(cfg.replace(b"0.01", b"x"), dat)
    assert (found.value.line, found.value.field) == (3, 6)
    assert str(found.value).startswith('the configuration file: line 3 (analogue channel 1), field 6 (a, the multiplier): found "x", expected ')
    with pytest.raises(dfr_comtrade.DatFault, match="^the data file: "):
        dfr_comtrade.read_bytes(cfg, dat[:-1], exact=True)
    assert dfr_comtrade.explain(cfg, dat) == ""
    with pytest.raises(dfr_comtrade.CfgFault):
        dfr_comtrade.read_bytes(b"", b"")
    with pytest.raises(FileNotFoundError):
        dfr_comtrade.read("/no such file.cfg")


def test_what_no_file_holds():
    def write(samples=(1,), **more):
        channel = {key: more.pop(key) for key in list(more) if key in ("unit", "a", "id")}
        dfr_comtrade.write_bytes([dfr_comtrade.Analog(**{"id": "x", **channel}, samples=samples)], [], **{"first": FIRST, "rates": [(50.0, 1)], **more})

    for more, place in [({"station": "a,b"}, (1, 1)), ({"unit": ""}, (3, 5)), ({"a": math.nan}, (3, 6)), ({"id": " x"}, (3, 2)), ({"samples": [40000]}, (1, 1))]:
        with pytest.raises(dfr_comtrade.WriteFault) as found:
            write(**more)
        assert (found.value.place, found.value.field) == place
    with pytest.raises(ValueError):
        dfr_comtrade.write_bytes([dfr_comtrade.Analog("x", [1, 2])], [dfr_comtrade.Status("y", [1])], first=FIRST)


def test_channels_as_arrays(plain):
    numpy = pytest.importorskip("numpy")
    assert plain.analog["UA"].values.dtype == numpy.float64 and plain.analog["UA"].samples.dtype == numpy.int32
    assert numpy.asarray(plain.analog["UA"]).shape == (50,) and plain.status[0].bits.dtype == numpy.uint8


def test_pandas(plain):
    pytest.importorskip("pandas")
    table = plain.to_pandas()
    assert list(table.columns) == ["UA", "IA", "IB", "Breaker open"] and table.index.name == "time" and table.shape == (50, 4)
    assert table["UA"].iloc[5] == plain.analog["UA"].values[5] and table.index[2] == 0.002


def test_a_channel_outlives_its_record():
    channel = dfr_comtrade.read(PAIRS / "plain.cfg").analog["UA"]
    assert channel.values[5] == 0.01 * 9005 + 0.5
