"""Names with each byte from 80 on, or each letter of two bytes, and what they are by Python's own tables.

    code_pages.py write NAME PAGE      a pair whose channels are named by 32 bytes, or 30 letters of two bytes, each
    code_pages.py compare PAGE         reads the first line of `comtrade csv`, compares its names
"""
import sys

CODECS = {"latin1": "latin-1", "windows-1251": "cp1251", "windows-1252": "cp1252", "shift_jis": "cp932"}
WIDE = {"gbk", "shift_jis"}
HIDDEN = {0xAD}


def letter(said, codec):
    """The letter of some bytes, or None; a private one is none."""
    try:
        text = said.decode(codec)
    except UnicodeDecodeError:
        return None
    return text if len(text) == 1 and not 0xE000 <= ord(text) < 0xF900 else None


def names_in(page):
    """The names, each as a list of letters in the encoding."""
    if page not in WIDE:
        return [[bytes([byte]) for byte in range(first, first + 32)] for first in (0x80, 0xA0, 0xC0, 0xE0)]
    pairs = [bytes([first, second]) for first in range(0x81, 0xFF) for second in range(0x40, 0xFF)]
    pairs = [pair for pair in pairs if letter(pair, CODECS.get(page, page))]
    return [pairs[at:at + 30] for at in range(0, len(pairs), 30)]


def shown(said, codec):
    """What is printed of a letter: itself, or in hexadecimal what is hidden or none."""
    found = letter(said, codec)
    if found is None:
        return "".join(f"\\x{byte:02x}" for byte in said)
    if ord(found) < 0xA0 or ord(found) in HIDDEN:
        return "".join(f"\\x{byte:02x}" for byte in found.encode())
    return found


def write(name, page):
    names = names_in(page)
    channels = b"".join(
        b"%d," % (i + 1) + b"".join(said) + b",A,,A,1,0,0,-10,10,1,1,P\r\n" for i, said in enumerate(names)
    )
    head = b"Bay,DFR,1999\r\n%d,%dA,0D\r\n" % (len(names), len(names)) + channels
    tail = b"50\r\n1\r\n1000,1\r\n01/01/2024,00:00:00.000000\r\n01/01/2024,00:00:00.000000\r\nASCII\r\n1\r\n"
    with open(name + ".cfg", "wb") as file:
        file.write(head + tail)
    with open(name + ".dat", "wb") as file:
        file.write(b"1,0" + b",5" * len(names) + b"\r\n")


def compare(page):
    codec = CODECS.get(page, page)
    cells = sys.stdin.readline().rstrip("\r\n").split(",")[3:]
    wanted = ["".join(shown(said, codec) for said in name) + " [A]" for name in names_in(page)]
    for cell, want in zip(cells, wanted):
        if cell != want:
            print(f"{page}: {cell} is not {want}")
    print(f"{page}: {len(cells)} names, {sum(a == b for a, b in zip(cells, wanted))} as Python has them")


if sys.argv[1] == "write":
    write(sys.argv[2], sys.argv[3])
else:
    compare(sys.argv[2])
