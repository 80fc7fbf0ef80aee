"""The names of the two files of a record, and how a new pair gets them. This module does not need the library."""
import errno
import os
import secrets
from typing import List, Optional, Tuple, Union

Name = Union[str, "os.PathLike[str]"]
WHOLE = (".cff", ".cff.gz", ".zip", ".cfz")  # a file with one of these endings is a whole record
ENDINGS = (".cfg", ".dat", ".cfg.gz", ".dat.gz") + WHOLE
IMPORT = "run: comtrade import FILE NAME first"


def split(name: Name, endings: Tuple[str, ...]) -> Tuple[str, str]:
    """A name without its ending, and the ending in lower case, which is one of these or empty. `.cfg` alone has no ending."""
    text = os.fspath(name)
    if not isinstance(text, str):
        raise TypeError(f"a path is a str, not {type(text).__name__}")
    for ending in endings:
        stem = text[: -len(ending)]
        if text.lower().endswith(ending) and os.path.basename(stem):
            return stem, ending
    return text, ""


def _key(name: str) -> bytes:
    """Names with the same key differ only in the case of ASCII letters."""
    return os.fsencode(name).lower()


def _search(stem: str, ending: str) -> Optional[str]:
    """The file with this name and ending in any case of letters. The best one has the same name and the ending in lower case; then come
    the same name, and the name in another case. The first in the order of bytes is preferred among equals."""
    folder, base = os.path.split(stem)
    if not base:
        return None
    for usual in (ending, ending.upper()):  # does without the list of a large folder
        if os.path.lexists(stem + usual):
            return stem + usual
    try:
        names = os.listdir(folder or ".")
    except (FileNotFoundError, NotADirectoryError):
        return None
    fitting = [name for name in names if _key(name) == _key(base + ending)]
    if not fitting:
        return None
    best = min(fitting, key=lambda name: (name[: -len(ending)] != base, os.fsencode(name)))
    return os.path.join(folder, best)


def _missing(name: Name, stem: str, endings: Tuple[str, ...]) -> FileNotFoundError:
    folder, base = os.path.split(stem)
    looked = " or ".join(base + ending for ending in endings)
    return FileNotFoundError(errno.ENOENT, f"found no {looked}, in upper or lower case, in the folder {folder or '.'}", os.fspath(name))


def is_single_text(cfg: bytes) -> bool:
    """Whether these bytes begin as a single file does, with a separator line."""
    text = cfg[3:] if cfg.startswith(b"\xef\xbb\xbf") else cfg
    return text.lstrip().startswith(b"---")


def _is_single(name: str) -> bool:
    with open(name, "rb") as file:
        return is_single_text(file.read(1000))


def _either(text: str, stem: str, given: str, ending: str) -> Optional[str]:
    """The file that is named if it has this ending, plain or compressed; else that of the same stem, a plain one first."""
    if given in (ending, ending + ".gz"):
        return text
    return _search(stem, ending) or _search(stem, ending + ".gz")


def pair_of(name: Name) -> Tuple[str, Optional[str]]:
    """The configuration file and the data file of a record by one name: either of them, or the name that they share. A single file (.cff) and
    an archive (.zip, .cfz) have no data file. The command `comtrade` finds the same files. Raises FileNotFoundError."""
    text = os.fspath(name)
    stem, given = split(name, ENDINGS)
    if given and not os.path.lexists(text):
        raise FileNotFoundError(errno.ENOENT, os.strerror(errno.ENOENT), text)
    if given in WHOLE:
        return text, None
    cfg = _either(text, stem, given, ".cfg")
    if cfg is None and not given:
        single = next(filter(None, (_search(stem, ending) for ending in WHOLE)), None)
        if single is not None:
            return single, None
    if cfg is None:
        raise _missing(name, stem, (".cfg",) if given else (".cfg", ".cff"))
    dat = _either(text, stem, given, ".dat")
    if dat is None and not _is_single(cfg):
        raise _missing(name, stem, (".dat",))
    return cfg, dat


def single_text(cfg: str) -> str:
    """Why a single file is not read, and what to do."""
    return f"{cfg}: a single file (.cff); {IMPORT}"


def import_hint(cfg: bytes) -> str:
    """What to do about a configuration file with an error, if its first line is that of another revision or of a single file."""
    line = cfg.split(b"\n", 1)[0].strip(b"\xef\xbb\xbf \t\r\x1a")
    if line.lower().startswith(b"---") and b"file type" in line.lower():
        return f"a single file (.cff); {IMPORT}"
    fields = [field.strip() for field in line.replace(b";", b",").split(b",")]
    year = fields[2] if len(fields) > 2 else b""
    is_older = not year and len(fields) in (2, 3)  # a file of 1991 has no year
    return IMPORT if is_older or year in (b"1991", b"2001", b"2013") else ""


def new_pair(path: Name, overwrite: bool) -> Tuple[str, str]:
    """The names of a new pair: `path` without .cfg or .dat, in any case of letters, and with these endings in lower case. Raises ValueError
    if the name is empty, and FileExistsError if one of both files exists, unless they are to be overwritten."""
    stem, _ = split(path, (".cfg", ".dat"))
    if os.path.basename(stem).lower() in ("", ".cfg", ".dat"):
        raise ValueError(f"the name of the new pair is empty: {os.fspath(path)!r}")
    names = stem + ".cfg", stem + ".dat"
    if not overwrite:
        for name in names:
            if os.path.lexists(name):
                raise _exists(name)
    return names


def _exists(name: str) -> FileExistsError:
    return FileExistsError(errno.EEXIST, "File exists (to replace a pair, use overwrite=True)", name)


def _place(made: str, name: str) -> None:
    """Gives a file its final name. Raises FileExistsError if a file has this name by now."""
    try:
        os.link(made, name)
    except FileExistsError:
        raise _exists(name) from None
    except (OSError, AttributeError, NotImplementedError):  # this file system has no hard links
        if os.path.lexists(name):
            raise _exists(name) from None
        os.rename(made, name)
    else:
        os.unlink(made)


def _write(made: str, data: bytes, name: str) -> None:
    with open(made, "xb") as file:
        file.write(data)
    if os.path.exists(name):
        os.chmod(made, os.stat(name).st_mode & 0o7777)


def save_pair(names: Tuple[str, str], cfg: bytes, dat: bytes, overwrite: bool) -> None:
    """Writes both files under temporary names in their folder, then gives them their names, the data file first. So a configuration file is
    there only once its data file is complete. Old files are moved aside before, so old and new never form a pair. If anything fails, the new
    files are removed and the old ones put back."""
    folder = os.path.dirname(names[0])
    temporary = [os.path.join(folder, f".dfr-{secrets.token_hex(8)}.tmp") for _ in range(4)]
    placed: List[str] = []
    aside: List[Tuple[str, str]] = []  # the old files, under temporary names
    name = names[1]
    try:
        for made, name, data in zip(temporary, reversed(names), (dat, cfg)):
            _write(made, data, name)
        if overwrite:
            for kept, name in zip(temporary[2:], names):
                if os.path.lexists(name):
                    if os.path.isdir(name) and not os.path.islink(name):
                        raise IsADirectoryError(errno.EISDIR, os.strerror(errno.EISDIR), name)
                    aside.append((kept, name))
                    os.rename(name, kept)
        for made, name in zip(temporary, reversed(names)):
            _place(made, name)
            placed.append(name)
    except BaseException as error:
        for gone in reversed(placed):
            _remove(gone)
        for kept, old in reversed(aside):
            if os.path.lexists(kept):
                _place(kept, old)
        if isinstance(error, OSError) and error.errno is not None:
            raise OSError(error.errno, error.strerror, name) from None  # not the temporary name
        raise
    finally:
        for made in temporary[:2]:
            _remove(made)
    for kept, _ in aside:
        _remove(kept)


def _remove(name: str) -> None:
    try:
        os.unlink(name)
    except OSError:
        pass
