"""Files that are compressed by gzip, and records in zip archives, by the rules of the command `comtrade`."""
import io
import zipfile
import zlib
from pathlib import Path
from typing import Optional, Tuple

from . import _files
from .errors import CfgFault, ComtradeError, DatFault

_MOST = 512 << 20  # the bytes of a file that is decompressed
_GZIP = 31  # zlib reads a gzip header with this many bits for the window


def _decompressed(data: bytes, fault: "type[ComtradeError]") -> bytes:
    """The bytes of a gzip file of one member."""
    reader = zlib.decompressobj(_GZIP)
    try:
        found = reader.decompress(data, _MOST + 1)
    except zlib.error as error:
        raise fault(f"the gzip file is damaged: {error}") from None
    if len(found) > _MOST:
        raise fault("the gzip file has more than 512 MiB")
    if not reader.eof or reader.unused_data:
        raise fault("the gzip file is cut, or bytes follow its end")
    return found


def _content(archive: zipfile.ZipFile, entry: zipfile.ZipInfo) -> bytes:
    if entry.file_size > _MOST:
        raise CfgFault(f"{entry.filename} in the archive has more than 512 MiB")
    try:
        return archive.read(entry)
    except (zipfile.BadZipFile, zlib.error, EOFError, NotImplementedError, RuntimeError) as error:
        raise CfgFault(f"{entry.filename} in the archive: {error}") from None


def _record_in(archive: zipfile.ZipFile) -> Tuple[bytes, Optional[bytes]]:
    entries = [entry for entry in archive.infolist() if not entry.filename.startswith("__MACOSX/")]
    records = [entry for entry in entries if entry.filename[:-4] and entry.filename[-4:].lower() in (".cfg", ".cff")]
    if not records:
        raise CfgFault("the archive has no .cfg and no .cff file")
    if len(records) > 1:
        raise CfgFault("the archive has several records: " + ", ".join(entry.filename for entry in records))
    cfg, stem = _content(archive, records[0]), records[0].filename[:-4].lower()
    if records[0].filename.lower().endswith(".cff"):
        return cfg, None
    data = [entry for entry in entries if entry.filename.lower() == stem + ".dat"]
    if len(data) == 1:
        return cfg, _content(archive, data[0])
    if not data and _files.is_single_text(cfg):
        return cfg, None
    raise CfgFault(f"the archive has {'several data files' if data else 'no data file'} of the name of {records[0].filename}")


def taken_out(cfg: bytes, dat: Optional[bytes]) -> Tuple[bytes, Optional[bytes]]:
    """The files of a record. A file alone may be a zip archive with one record in it, or a single file that is compressed by gzip."""
    if dat is None and cfg[:4] in (b"PK\x03\x04", b"PK\x05\x06"):
        try:
            with zipfile.ZipFile(io.BytesIO(cfg)) as archive:
                return _record_in(archive)
        except zipfile.BadZipFile as error:
            raise CfgFault(f"the archive is damaged: {error}") from None
    if dat is None and cfg[:2] == b"\x1f\x8b":
        return _decompressed(cfg, CfgFault), None
    return cfg, dat


def contents(cfg: _files.Name, dat: Optional[_files.Name]) -> Tuple[bytes, Optional[bytes]]:
    """The bytes of the files with these names. Those of a pair are decompressed if their names end in .gz. Raises OSError, CfgFault, DatFault."""
    if dat is None:
        return taken_out(Path(cfg).read_bytes(), None)
    return _named(cfg, CfgFault), _named(dat, DatFault)


def _named(name: _files.Name, fault: "type[ComtradeError]") -> bytes:
    content = Path(name).read_bytes()
    return _decompressed(content, fault) if str(name).lower().endswith(".gz") else content
