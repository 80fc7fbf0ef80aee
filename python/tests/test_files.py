"""The names of pairs, and how a new pair is written. These tests do not need the library."""
import importlib.util
import os
from pathlib import Path

import pytest

_SPEC = importlib.util.spec_from_file_location("dfr_files", Path(__file__).resolve().parents[1] / "dfr_comtrade" / "_files.py")
files = importlib.util.module_from_spec(_SPEC)
_SPEC.loader.exec_module(files)
DFRD = "20240701T103000.350625-1"


@pytest.fixture
def here(tmp_path, monkeypatch):
    """An empty folder that is the current one."""
    monkeypatch.chdir(tmp_path)
    return tmp_path


def make(*names):
    for name in names:
        Path(name).write_bytes(name.encode())


def held():
    """The files of the current folder with their bytes."""
    return {path.name: path.read_bytes() for path in Path().iterdir()}


def save(name, cfg=b"C", dat=b"D", overwrite=False):
    files.save_pair(files.new_pair(name, overwrite), cfg, dat, overwrite)


@pytest.mark.parametrize("name, stem", [
    (DFRD, DFRD), (DFRD + ".cfg", DFRD), ("x", "x"), ("x.cfg", "x"), ("x.dat", "x"), ("x.CFG", "x"), ("x.Dat", "x"), ("a.b", "a.b"), ("a.cff", "a.cff"),
    ("x.cfg.cfg", "x.cfg"), ("xcfg", "xcfg"), (".x", ".x"), (Path("x.cfg"), "x"),
])
def test_names_of_a_new_pair(here, name, stem):
    assert files.new_pair(name, False) == (stem + ".cfg", stem + ".dat")
    save(name)
    assert held() == {stem + ".cfg": b"C", stem + ".dat": b"D"}


@pytest.mark.parametrize("name", ["", ".cfg", ".DAT", "folder/", "folder/.cfg"])
def test_a_new_pair_needs_a_name(here, name):
    with pytest.raises(ValueError, match="the name of the new pair is empty"):
        files.new_pair(name, True)


def test_a_new_pair_in_another_folder(here):
    os.mkdir("a.b")
    save(os.path.join("a.b", "x"))
    assert sorted(os.listdir("a.b")) == ["x.cfg", "x.dat"]
    with pytest.raises(FileNotFoundError) as found:
        save(os.path.join("none", "x"))
    assert str(found.value) == f"[Errno 2] No such file or directory: {os.path.join('none', 'x.dat')!r}"


@pytest.mark.parametrize("there", [("x.cfg",), ("x.dat",), ("x.cfg", "x.dat")])
def test_nothing_is_overwritten(here, there):
    make(*there)
    before = held()
    with pytest.raises(FileExistsError) as found:
        files.new_pair("x", False)
    assert found.value.filename == there[0] and there[0] in str(found.value) and "overwrite=True" in str(found.value)
    assert held() == before


@pytest.mark.parametrize("there", ["x.cfg", "x.dat"])
def test_a_file_that_appears_meanwhile_stays(here, there):
    names = files.new_pair("x", False)
    make(there)
    with pytest.raises(FileExistsError) as found:
        files.save_pair(names, b"C", b"D", False)
    assert found.value.filename == there and held() == {there: there.encode()}


@pytest.mark.parametrize("there", [(), ("x.cfg",), ("x.dat",), ("x.cfg", "x.dat")])
def test_overwrite(here, there):
    make(*there)
    save("x", overwrite=True)
    assert held() == {"x.cfg": b"C", "x.dat": b"D"}


def test_modes(here):
    mask = os.umask(0o027)
    try:
        save("x")
        assert [os.stat(name).st_mode & 0o777 for name in ("x.cfg", "x.dat")] == [0o640, 0o640]
        os.chmod("x.cfg", 0o600)
        save("x", overwrite=True)
        assert [os.stat(name).st_mode & 0o777 for name in ("x.cfg", "x.dat")] == [0o600, 0o640]
    finally:
        os.umask(mask)


@pytest.mark.parametrize("overwrite", [False, True])
@pytest.mark.parametrize("failing", range(6))
def test_half_a_pair_never_stays(here, monkeypatch, overwrite, failing):
    """Each step that changes the folder fails in turn: each file that is opened, each old one that is moved, each new name."""
    make("other")
    if overwrite:
        make("x.cfg", "x.dat")
    before, steps = held(), [0]

    def failing_at(call):
        def wrapped(*words):
            steps[0] += 1
            if steps[0] == failing + 1:
                raise OSError(28, "No space left on device", words[0])
            return call(*words)
        return wrapped

    monkeypatch.setattr(files, "_write", failing_at(files._write))
    monkeypatch.setattr(files, "_place", failing_at(files._place))
    monkeypatch.setattr(files.os, "rename", failing_at(os.rename))
    if failing >= (6 if overwrite else 4):
        save("x", overwrite=overwrite)
        assert held() == {"other": b"other", "x.cfg": b"C", "x.dat": b"D"}
    else:
        with pytest.raises(OSError) as found:
            save("x", overwrite=overwrite)
        assert found.value.filename in ("x.cfg", "x.dat") and held() == before


def test_the_data_file_comes_first(here, monkeypatch):
    seen, place = [], files._place

    def placing(made, name):
        seen.append((name, sorted(path for path in os.listdir() if path.startswith("x"))))
        place(made, name)

    make("x.cfg", "x.dat")
    monkeypatch.setattr(files, "_place", placing)
    save("x", overwrite=True)
    assert seen == [("x.dat", []), ("x.cfg", ["x.dat"])]  # the old files never form a pair with the new ones


def test_without_hard_links(here, monkeypatch):
    def link(*_):
        raise PermissionError(1, "Operation not permitted")

    monkeypatch.setattr(files.os, "link", link)
    save("x")
    assert held() == {"x.cfg": b"C", "x.dat": b"D"}
    save("x", b"E", b"F", overwrite=True)
    assert held() == {"x.cfg": b"E", "x.dat": b"F"}
    make("y.cfg")
    with pytest.raises(FileExistsError):
        files.save_pair(("y.cfg", "y.dat"), b"C", b"D", False)
    assert "y.dat" not in held()


def test_a_folder_is_not_replaced(here):
    os.mkdir("x.cfg")
    make("x.dat")
    with pytest.raises(IsADirectoryError):
        save("x", overwrite=True)
    assert sorted(os.listdir()) == ["x.cfg", "x.dat"] and Path("x.dat").read_bytes() == b"x.dat"


@pytest.mark.parametrize("there, name, pair", [
    ("a.cfg a.dat", "a", "a.cfg a.dat"),
    ("a.cfg a.dat", "a.cfg", "a.cfg a.dat"),
    ("a.cfg a.dat", "a.dat", "a.cfg a.dat"),
    ("A.CFG A.DAT", "A.DAT", "A.CFG A.DAT"),
    ("A.CFG A.DAT", "a", "A.CFG A.DAT"),
    ("b.CFG B.Dat", "b", "b.CFG B.Dat"),
    ("b.CFG B.Dat", "b.CFG", "b.CFG B.Dat"),
    ("b.CFG B.Dat", "B.Dat", "b.CFG B.Dat"),
    ("a.cfg a.dat A.DAT A.CFG", "a", "a.cfg a.dat"),
    ("a.cfg a.dat A.DAT A.CFG", "A.CFG", "A.CFG A.DAT"),
    ("a.cfg a.DAT A.dat", "a", "a.cfg a.DAT"),
    ("a.cfg A.dat A.DAT", "a", "a.cfg A.DAT"),
    ("c.d.cfg c.d.dat c.cfg c.dat", "c.d", "c.d.cfg c.d.dat"),
    (f"{DFRD}.cfg {DFRD}.dat", DFRD, f"{DFRD}.cfg {DFRD}.dat"),
    ("a.cfg.cfg a.cfg.dat", "a.cfg.cfg", "a.cfg.cfg a.cfg.dat"),
    ("a.cff a.cfg a.dat", "a", "a.cfg a.dat"),
    ("a.cff", "a", "a.cff"),
    ("A.CFF", "a", "A.CFF"),
    ("a.CFF", "a.CFF", "a.CFF"),
])
def test_pairs(here, there, name, pair):
    make(*there.split())
    found = files.pair_of(name)
    assert " ".join(file for file in found if file) == pair
    within = files.pair_of(os.path.join(str(here), name))
    assert within == tuple(file and os.path.join(str(here), file) for file in found)
    assert files.pair_of(Path(name)) == found


@pytest.mark.parametrize("there, name, looked", [
    ("", "a", "a.cfg or a.cff"), ("a.cfg", "a", "a.dat"), ("a.cfg", "a.cfg", "a.dat"), ("a.dat", "a.dat", "a.cfg"), ("a.dat", "a", "a.cfg or a.cff"),
    ("a.cff a.dat", "a.dat", "a.cfg"), ("a.cfg a.dat", "a.txt", "a.txt.cfg or a.txt.cff"), ("a.cfg", "", ".cfg or .cff"),
])
def test_a_missing_file(here, there, name, looked):
    make(*there.split())
    with pytest.raises(FileNotFoundError) as found:
        files.pair_of(name)
    assert str(found.value) == f"[Errno 2] found no {looked}, in upper or lower case, in the folder .: {name!r}"


@pytest.mark.parametrize("name", ["a.cfg", "a.DAT", "a.cff", os.path.join("none", "a.cfg")])
def test_the_named_file_is_missing(here, name):
    with pytest.raises(FileNotFoundError) as found:
        files.pair_of(name)
    assert str(found.value) == f"[Errno 2] No such file or directory: {name!r}"


def test_a_missing_folder(here):
    with pytest.raises(FileNotFoundError, match="found no a.cfg or a.cff, in upper or lower case, in the folder none: "):
        files.pair_of(os.path.join("none", "a"))


IMPORT = "run: comtrade import FILE NAME first"


@pytest.mark.parametrize("first", [b"S,D,1999", b"S,D,1999\r", b"", b"S", b"S,D,1998", b"S;D;1999", b"S,D,1999,x"])
def test_no_hint(first):
    assert files.import_hint(first + b"\n1,1A,0D\n") == ""


@pytest.mark.parametrize("first", [b"S,D", b"S,D,\r", b"S,D,1991", b"S,D,2001\r", b"S, D, 2013 ", b"\xef\xbb\xbfS;D;2013"])
def test_hints(first):
    assert files.import_hint(first + b"\n1,1A,0D\n") == IMPORT


def test_hint_of_a_single_file():
    assert files.import_hint(b"--- file type: CFG ---\r\nS,D,2013\r\n") == "a single file (.cff); " + IMPORT
    assert files.single_text("x.cff") == "x.cff: a single file (.cff); " + IMPORT


def test_hints_of_relays():
    relays = Path(__file__).resolve().parents[2] / "examples" / "relays"
    if not relays.is_dir():
        pytest.skip("not in the repository")
    hints = {name: files.import_hint((relays / name).read_bytes()) for name in ("RELAY91.CFG", "merging.cfg", "single.cff", "returns.cfg")}
    assert list(hints.values()) == [IMPORT, IMPORT, "a single file (.cff); " + IMPORT, ""]
