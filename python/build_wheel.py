"""Builds the wheel, the editable wheel and the sdist. It needs no other package and no network.

The wheel has the shared object that `examples/embedding/install` left in the package; without one,
as in an sdist, that which DFR_COMTRADE_LIBRARY names. DFR_COMTRADE_PLATFORM is the platform in the
wheel's tag (default: this machine's); packaging/build sets it after it has checked the library. The
editable wheel only has the path of this folder.

The same sources give the same bytes. Their date is SOURCE_DATE_EPOCH, or 1980-01-01."""
import ast
import base64
import gzip
import hashlib
import io
import os
import re
import sysconfig
import tarfile
import time
import zipfile
from pathlib import Path

_HERE = Path(__file__).resolve().parent
_PROJECT = (_HERE / "pyproject.toml").read_text(encoding="utf-8")
_NAME = "dfr_comtrade"
_LICENCES = ("LICENSE-MIT", "LICENSE-APACHE")
_FIRST_DATE = 315532800  # 1980-01-01, the first that a zip file can hold


def _text(key):
    """A text of pyproject.toml."""
    return re.search(rf'^{key} = "(.*)"$', _PROJECT, re.M).group(1)


def _list(key, table=_PROJECT):
    """A list of texts of pyproject.toml, which is spelled as in Python."""
    return ast.literal_eval(re.search(rf"^{key} = (\[.*?\])$", table, re.M | re.S).group(1))


def _date():
    return max(int(os.environ.get("SOURCE_DATE_EPOCH", _FIRST_DATE)), _FIRST_DATE)


def _metadata(licences):
    lines = [
        "Metadata-Version: 2.4",
        f"Name: {_text('name')}",
        f"Version: {_text('version')}",
        f"Summary: {_text('description')}",
        "Description-Content-Type: text/markdown; charset=UTF-8",
        f"Requires-Python: {_text('requires-python')}",
        f"License-Expression: {_text('license')}",
        f"Keywords: {','.join(_list('keywords'))}",
        "Author: " + ", ".join(re.findall(r'name = "([^"]*)" }', _PROJECT)),
    ]
    lines += [f"License-File: {name}" for name in licences]
    lines += [f"Classifier: {classifier}" for classifier in _list("classifiers")]
    extras = re.search(r"^\[project\.optional-dependencies\]\n(.*?)(?=^\[|\Z)", _PROJECT, re.M | re.S).group(1)
    for extra in re.findall(r"^(\w+) = ", extras, re.M):
        lines.append(f"Provides-Extra: {extra}")
        lines += [f'Requires-Dist: {package}; extra == "{extra}"' for package in _list(extra, extras)]
    return "\n".join(lines) + "\n\n" + (_HERE / _text("readme")).read_text(encoding="utf-8")


def _licences():
    """The licences: at the top of the repository, or in this folder if it is that of an sdist."""
    folders = (_HERE.parent, _HERE)
    return {name: (at / name).read_bytes() for at in folders for name in _LICENCES if (at / name).exists()}


def _sources():
    paths = sorted((_HERE / _NAME).iterdir())
    return {f"{_NAME}/{path.name}": path.read_bytes() for path in paths if path.suffix in (".py", ".typed")}


def _library():
    found = _HERE / _NAME / "libcomtrade.so"
    if not found.exists():
        found = Path(os.environ.get("DFR_COMTRADE_LIBRARY", found))
    if not found.exists():
        raise SystemExit(
            f"no {found}: run examples/embedding/install PREFIX of the repository first,"
            " or set DFR_COMTRADE_LIBRARY to a libcomtrade.so"
        )
    return found.read_bytes()


def _record(files, info):
    """The list of all files with their sums."""
    lines = []
    for name, data in files.items():
        sum_of = base64.urlsafe_b64encode(hashlib.sha256(data).digest()).rstrip(b"=").decode()
        lines.append(f"{name},sha256={sum_of},{len(data)}\n")
    return "".join([*lines, f"{info}/RECORD,,\n"]).encode()


def _save_wheel(folder, files, tag, is_pure):
    info = f"{_NAME}-{_text('version')}.dist-info"
    licences = _licences()
    pure = "true" if is_pure else "false"
    files.update({f"{info}/licenses/{name}": data for name, data in licences.items()})
    files[f"{info}/METADATA"] = _metadata(licences).encode()
    files[f"{info}/WHEEL"] = (
        f"Wheel-Version: 1.0\nGenerator: build_wheel\nRoot-Is-Purelib: {pure}\nTag: {tag}\n".encode()
    )
    files[f"{info}/RECORD"] = _record(files, info)
    wheel = f"{_NAME}-{_text('version')}-{tag}.whl"
    with zipfile.ZipFile(Path(folder) / wheel, "w") as out:
        for name, data in files.items():
            about = zipfile.ZipInfo(name, time.gmtime(_date())[:6])
            about.external_attr = (0o755 if name.endswith(".so") else 0o644) << 16 | 0o100000 << 16
            out.writestr(about, data, zipfile.ZIP_DEFLATED, 9)
    return wheel


def build_wheel(wheel_directory, config_settings=None, metadata_directory=None):
    platform = os.environ.get("DFR_COMTRADE_PLATFORM", sysconfig.get_platform())
    tag = "py3-none-" + re.sub("[-.]", "_", platform)
    return _save_wheel(wheel_directory, {**_sources(), f"{_NAME}/libcomtrade.so": _library()}, tag, False)


def build_editable(wheel_directory, config_settings=None, metadata_directory=None):
    path = {f"__editable__.{_NAME}.pth": f"{_HERE}\n".encode()}
    return _save_wheel(wheel_directory, path, "py3-none-any", True)


def build_sdist(sdist_directory, config_settings=None):
    top = f"{_NAME}-{_text('version')}"
    licences = _licences()
    files = {name: (_HERE / name).read_bytes() for name in ("README.md", "build_wheel.py", "pyproject.toml")}
    files.update(_sources())
    tests = sorted((_HERE / "tests").glob("*.py"))
    files.update({f"tests/{path.name}": path.read_bytes() for path in tests})
    files.update({"PKG-INFO": _metadata(licences).encode(), **licences})
    made = io.BytesIO()
    with tarfile.open(fileobj=made, mode="w", format=tarfile.USTAR_FORMAT) as out:
        for name, data in files.items():
            about = tarfile.TarInfo(f"{top}/{name}")
            about.size, about.mode, about.mtime = len(data), 0o644, _date()
            out.addfile(about, io.BytesIO(data))
    packed = gzip.compress(made.getvalue(), 9, mtime=_date())
    (Path(sdist_directory) / f"{top}.tar.gz").write_bytes(packed)
    return f"{top}.tar.gz"
