"""What the build backend makes, and that pip installs it. These tests do not need the library, and no network."""
import email
import importlib.util
import os
import re
import shutil
import subprocess
import sys
import tarfile
import zipfile
from pathlib import Path

import pytest

PYTHON = Path(__file__).resolve().parents[1]
VERSION = re.search(r'^version = "(.*)"$', (PYTHON / "pyproject.toml").read_text(), re.M).group(1)
NAME = f"dfr_comtrade-{VERSION}"


@pytest.fixture(scope="module")
def project(tmp_path_factory):
    """A copy of the folder python/, in place of the library a file that is none."""
    top = tmp_path_factory.mktemp("top")
    shutil.copytree(PYTHON, top / "python", ignore=shutil.ignore_patterns("__pycache__", "*.so", "build", "*.egg-info"))
    for name in ("LICENSE-MIT", "LICENSE-APACHE"):
        for folder in (PYTHON.parent, PYTHON):
            if (folder / name).exists():
                shutil.copy(folder / name, top)
    (top / "python" / "dfr_comtrade" / "libcomtrade.so").write_bytes(b"library")
    return top / "python"


def backend(folder):
    spec = importlib.util.spec_from_file_location("backend", folder / "build_wheel.py")
    module = importlib.util.module_from_spec(spec)
    spec.loader.exec_module(module)
    return module


def check_metadata(data):
    about = email.message_from_bytes(data)
    assert (about["Name"], about["Version"], about["Requires-Python"]) == ("dfr-comtrade", VERSION, ">=3.8")
    assert about["Summary"].startswith("Reads COMTRADE") and about["License-Expression"] == "MIT OR Apache-2.0"
    assert about.get_all("License-File") == ["LICENSE-MIT", "LICENSE-APACHE"]
    assert about.get_all("Provides-Extra") == ["arrays", "test"]
    assert about.get_all("Requires-Dist") == ['numpy; extra == "arrays"', 'pandas; extra == "arrays"', 'pytest; extra == "test"']
    assert about["Author"] == "The Mehukarau authors" and "COMTRADE" in about["Keywords"].split(",")
    assert about["Description-Content-Type"].startswith("text/markdown")
    assert about.get_payload(decode=True).decode() == (PYTHON / "README.md").read_text(encoding="utf-8")


def names_in(wheel):
    with zipfile.ZipFile(wheel) as made:
        assert made.testzip() is None
        names = made.namelist()
        check_metadata(made.read(f"{NAME}.dist-info/METADATA"))
        record = made.read(f"{NAME}.dist-info/RECORD").decode().splitlines()
    assert [line.split(",")[0] for line in record] == names
    assert [name for name in names if "/licenses/" in name] == [f"{NAME}.dist-info/licenses/LICENSE-{which}" for which in ("MIT", "APACHE")]
    return [name for name in names if ".dist-info/" not in name]


def test_wheel(project, tmp_path):
    names = names_in(tmp_path / backend(project).build_wheel(str(tmp_path)))
    modules = sorted(path.name for path in (PYTHON / "dfr_comtrade").iterdir() if path.suffix in (".py", ".typed"))
    assert sorted(names) == sorted(f"dfr_comtrade/{name}" for name in [*modules, "libcomtrade.so"])


def test_same_bytes(project, tmp_path, monkeypatch):
    monkeypatch.setenv("SOURCE_DATE_EPOCH", "1795824000")
    monkeypatch.setenv("DFR_COMTRADE_PLATFORM", "manylinux_2_28_x86_64")
    made = []
    for folder in (tmp_path / "one", tmp_path / "two"):
        folder.mkdir()
        names = backend(project).build_wheel(str(folder)), backend(project).build_sdist(str(folder))
        made.append({name: (folder / name).read_bytes() for name in names})
        for path in (project / "dfr_comtrade").iterdir():
            os.utime(path, (1, 1))
    assert made[0] == made[1] and f"{NAME}-py3-none-manylinux_2_28_x86_64.whl" in made[0]


def test_editable(project, tmp_path):
    wheel = tmp_path / backend(project).build_editable(str(tmp_path))
    (name,) = names_in(wheel)
    assert name.endswith(".pth") and zipfile.ZipFile(wheel).read(name).decode() == f"{project}\n"


def test_sdist(project, tmp_path, monkeypatch):
    with tarfile.open(tmp_path / backend(project).build_sdist(str(tmp_path))) as made:
        made.extractall(tmp_path)
    top = tmp_path / NAME
    check_metadata((top / "PKG-INFO").read_bytes())
    for name in ("pyproject.toml", "build_wheel.py", "README.md", "dfr_comtrade/_files.py", "dfr_comtrade/py.typed", "tests/test_files.py"):
        assert (top / name).read_bytes() == (PYTHON / name).read_bytes()
    assert not list(top.rglob("*.so"))
    # A wheel from it needs the library; an sdist from it is the same.
    monkeypatch.delenv("DFR_COMTRADE_LIBRARY", raising=False)
    with pytest.raises(SystemExit, match="no .*libcomtrade.so: "):
        backend(top).build_wheel(str(tmp_path))
    monkeypatch.setenv("DFR_COMTRADE_LIBRARY", str(project / "dfr_comtrade" / "libcomtrade.so"))
    assert "dfr_comtrade/libcomtrade.so" in names_in(tmp_path / backend(top).build_wheel(str(tmp_path)))
    (tmp_path / "again").mkdir()
    with tarfile.open(tmp_path / "again" / backend(top).build_sdist(str(tmp_path / "again"))) as made:
        again = {file.name: made.extractfile(file).read() for file in made.getmembers()}
    assert again == {str(path.relative_to(tmp_path)): path.read_bytes() for path in top.rglob("*") if path.is_file() and path.suffix != ".pyc"}


def test_pip(project, tmp_path):
    pytest.importorskip("ensurepip")
    subprocess.run([sys.executable, "-m", "venv", str(tmp_path / "venv")], check=True)
    python = tmp_path / "venv" / "bin" / "python"
    words = {key: value for key, value in os.environ.items() if key not in ("PYTHONPATH", "DFR_COMTRADE_LIBRARY")}

    def install(*what, **more):
        subprocess.run([python, "-m", "pip", "install", "-q", "--no-build-isolation", "--no-index", *what], check=True, env={**words, **more})
        code = "import importlib.metadata as m, importlib.util as u; print(m.version('dfr-comtrade')); print(u.find_spec('dfr_comtrade').origin)"
        version, origin = subprocess.run([python, "-c", code], check=True, env=words, cwd=tmp_path, stdout=subprocess.PIPE, text=True).stdout.split("\n")[:2]
        assert version == VERSION
        return Path(origin).parent

    assert install("-e", str(project)) == project / "dfr_comtrade"
    for name, folder in (("python", project), ("sdist", tmp_path / backend(project).build_sdist(str(tmp_path)))):
        package = install("--force-reinstall", str(folder), DFR_COMTRADE_LIBRARY=str(project / "dfr_comtrade" / "libcomtrade.so"))
        assert tmp_path / "venv" in package.parents and (package / "libcomtrade.so").read_bytes() == b"library", name
