"""Files that are compressed by gzip, and records in zip archives."""
import gzip
import io
import zipfile

import dfr_comtrade
import pytest

CFG = b"Bay,Relay,1999\r\n1,1A,0D\r\n1,IA,A,,A,0.1,0,0,-10,10,1,1,P\r\n50\r\n1\r\n1000,2\r\n" + 2 * b"01/02/2024,12:00:00.000000\r\n" + b"ASCII\r\n1\r\n"
DAT = b"1,0,10\r\n2,1000,-10\r\n"
CFF = b"--- file type: CFG ---\r\n" + CFG.replace(b"1999", b"2013") + b",\r\n,\r\n--- file type: DAT ASCII ---\r\n" + DAT


def zipped(*files, method=zipfile.ZIP_DEFLATED):
    made = io.BytesIO()
    with zipfile.ZipFile(made, "w", method) as archive:
        for name, content in files:
            archive.writestr(name, content)
    return made.getvalue()


def is_read(record):
    assert record.station == "Bay" and list(record.analog["IA"].values) == pytest.approx([1.0, -1.0])


def test_a_pair_compressed_by_gzip(tmp_path):
    (tmp_path / "a.cfg.gz").write_bytes(gzip.compress(CFG))
    (tmp_path / "a.dat.gz").write_bytes(gzip.compress(DAT))
    for name in ("a", "a.cfg.gz", "a.dat.gz"):
        is_read(dfr_comtrade.read(tmp_path / name, exact=True))
    (tmp_path / "A.DAT").write_bytes(DAT.replace(b"10", b"7"))  # a plain file goes before a compressed one
    assert dfr_comtrade.read(tmp_path / "a", exact=True).analog[0][0] == pytest.approx(0.7)
    is_read(dfr_comtrade.read(tmp_path / "a.dat.gz", exact=True))


@pytest.mark.parametrize("method", [zipfile.ZIP_STORED, zipfile.ZIP_DEFLATED])
@pytest.mark.parametrize("ending", [".zip", ".cfz", ".CFZ"])
def test_an_archive(tmp_path, ending, method):
    archive = zipped(("x/Rec.CFG", CFG), ("x/rec.dat", DAT), ("x/read.me", b"?"), ("__MACOSX/x/Rec.CFG", b"?"), method=method)
    (tmp_path / ("a" + ending)).write_bytes(archive)
    is_read(dfr_comtrade.read(tmp_path / ("a" + ending), exact=True))
    is_read(dfr_comtrade.read_bytes(archive))
    assert dfr_comtrade.load(tmp_path / ("a" + ending)).station_name == "Bay"
    if ending != ".CFZ":
        is_read(dfr_comtrade.read(tmp_path / "a"))


@pytest.mark.filterwarnings("ignore::dfr_comtrade.RepairWarning")
def test_a_single_file_that_is_packed(tmp_path):
    (tmp_path / "a.cff.gz").write_bytes(gzip.compress(CFF))
    (tmp_path / "b.cfg").write_bytes(CFF)
    for name in ("a", "a.cff.gz", "b", "b.cfg"):
        is_read(dfr_comtrade.read(tmp_path / name))
    is_read(dfr_comtrade.read_bytes(gzip.compress(CFF)))
    is_read(dfr_comtrade.read_bytes(zipped(("a.cff", CFF))))
    is_read(dfr_comtrade.read_bytes(zipped(("a.cfg", CFF))))
    with pytest.raises(dfr_comtrade.CfgFault, match="single file"):
        dfr_comtrade.read(tmp_path / "a", exact=True)


@pytest.mark.parametrize("files, why", [
    ([("a.txt", b"")], "no .cfg and no .cff"), ([], "no .cfg and no .cff"), ([("a.cfg", CFG)], "no data file"),
    ([("a.cfg", CFG), ("b.cff", CFF)], "several records: a.cfg, b.cff"), ([("a.cfg", CFG), ("a.dat", DAT), ("A.DAT", DAT)], "several data files"),
])
def test_archives_without_one_record(files, why):
    with pytest.raises(dfr_comtrade.CfgFault, match=why):
        dfr_comtrade.read_bytes(zipped(*files))


def test_damaged_files(tmp_path):
    archive, packed = zipped(("a.cfg", CFG), ("a.dat", DAT)), gzip.compress(CFF)
    for content in (archive[:-30], archive[:40] + b"\xff" + archive[41:], packed[:-9], packed + b"x", packed[:-6] + b"\0\0" + packed[-4:]):
        with pytest.raises(dfr_comtrade.CfgFault):
            dfr_comtrade.read_bytes(content)
    (tmp_path / "a.cfg").write_bytes(CFG)
    (tmp_path / "a.dat.gz").write_bytes(gzip.compress(DAT)[:-1])
    with pytest.raises(dfr_comtrade.DatFault, match="is cut"):
        dfr_comtrade.read(tmp_path / "a")
