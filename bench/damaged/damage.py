"""Ways in which files are damaged: bytes, lines, fields, and what they are packed in."""

HUGE = [b"999999999999", b"1E99", b"1E-99", b"9" * 40, b"-1", b"4294967295", b"4294967296",
        b"2147483648", b"-2147483649",
        b"65536", b"32768", b"99999", b"100000", b"0", b"0.5", b"", b"x", b"NaN", b"inf",
        b"00/00/0000", b"29/02/2023",
        b"23:59:60", b"24:00:00", b"01/01/9999", b"999", b"000000000000000000000001", b"1e3",
        b"0x10", b"1_000", b"\xff", b"+-1", b"1."]


def flipped(chance, text):
    at = chance.randrange(len(text))
    return text[:at] + bytes([text[at] ^ 1 << chance.randrange(8)]) + text[at + 1:]


def changed(chance, text):
    at = chance.randrange(len(text))
    return text[:at] + bytes([chance.choice([chance.randrange(256), 0, 10, 13, 26, 32, 44, 48, 57,
                                             255])]) + text[at + 1:]


def cut(chance, text):
    return text[:chance.randrange(len(text))]


def cut_in_front(chance, text):
    return text[chance.randrange(1, len(text) + 1):]


def dropped(chance, text):
    at = chance.randrange(len(text))
    return text[:at] + text[at + chance.choice([1, 1, 2, 4, 16]):]


def doubled(chance, text):
    at, size = chance.randrange(len(text)), chance.choice([1, 1, 2, 4, 16])
    return text[:at + size] + text[at:]


def filled(chance, text):
    """A block of one byte, as of a sector that was lost."""
    at, size = chance.randrange(len(text)), chance.choice([1, 4, 30, 512])
    return text[:at] + bytes([chance.choice([0, 255,
                                             32])]) * len(text[at:at + size]) + text[at + size:]


def of_parts(mark):
    """Drops, doubles or swaps parts between marks."""
    def damaged(chance, text):
        parts = text.split(mark)
        i, j = chance.randrange(len(parts)), chance.randrange(len(parts))
        way = chance.randrange(3)
        if way == 0:
            del parts[i]
        elif way == 1:
            parts.insert(i, parts[i])
        else:
            parts[i], parts[j] = parts[j], parts[i]
        return mark.join(parts)
    return damaged


def made_huge(chance, text):
    """A field that says something else."""
    lines = text.split(b"\n")
    at = chance.randrange(len(lines))
    fields = lines[at].split(b",")
    fields[chance.randrange(len(fields))] = chance.choice(HUGE)
    return b"\n".join(lines[:at] + [b",".join(fields)] + lines[at + 1:])


def digit_changed(chance, text):
    """One digit becomes another: a damage that no form shows."""
    places = [i for i in range(len(text)) if 48 <= text[i] <= 57]
    if not places:
        return flipped(chance, text)
    at = chance.choice(places)
    return text[:at] + bytes([48 + chance.randrange(10)]) + text[at + 1:]


WAYS = {
    "bit flipped": flipped, "byte changed": changed, "cut at the end": cut,
    "cut in front": cut_in_front, "bytes dropped": dropped,
    "bytes doubled": doubled, "block filled": filled, "lines": of_parts(b"\n"),
    "fields": of_parts(b","), "field replaced": made_huge,
    "digit changed": digit_changed,
}


def is_packed(files):
    return any(ending.endswith(("gz", "zip", "cfz")) for ending in files)


def damaged(chance, files):
    """The files with one to three damages, and what these are. Beside a packed file, no other is
    damaged."""
    files, told = dict(files), []
    endings = [ending for ending in sorted(files) if is_packed([ending])] or sorted(files)
    for _ in range(chance.choice([1, 1, 1, 2, 3])):
        ending = chance.choice(endings)
        way = chance.choice(sorted(WAYS))
        if files[ending]:
            files[ending] = WAYS[way](chance, files[ending])
            told.append("%s: %s" % (ending, way))
    return files, told
