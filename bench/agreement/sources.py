"""Where records come from: by chance, in all forms, and those below folders. A record is its files
by ending."""
import os
import random
import re

import forms

ENDINGS = ("cff", "zip", "cfz", "cff.gz")


def by_chance(count, seed):
    """Records by chance: their name, and their files by ending."""
    for n in range(count):
        form = forms.KNOWN[n % len(forms.KNOWN)]
        yield "%s %d" % (form, n), forms.made(random.Random(seed * 1000003 + n), form)


def content(folder, name):
    with open(os.path.join(folder, name), "rb") as file:
        return file.read()


def below(top):
    """The records below a folder."""
    for at, _, names in sorted(os.walk(top)):
        by_lower = {name.lower(): name for name in names}
        for name in sorted(names):
            stem, _, ending = name.lower().partition(".")
            if ending in ENDINGS:
                yield os.path.join(at, name), {ending: content(at, name)}
            data = [by_lower.get(stem + end) for end in (".dat", ".dat.gz")
                    if stem + end in by_lower]
            if ending in ("cfg", "cfg.gz") and data:
                kept = data[0].lower().partition(".")[2]
                yield os.path.join(at, name), {ending: content(at, name),
                                               kept: content(at, data[0])}


def put(record, folder, name="in"):
    """Writes the files of a record, and gives the words that name it."""
    paths = {ending: os.path.join(folder, "%s.%s" % (name, ending)) for ending in record}
    for ending, path in paths.items():
        with open(path, "wb") as file:
            file.write(record[ending])
    if set(record) == {"cfg", "dat"}:
        return [paths["cfg"], paths["dat"]]
    return [paths[min(record)]]


def name_of(text):
    """A short name for a path, without the folders that every run has."""
    return re.sub(r"^.*?/(cases|examples|records|dialects|docs)/", r"\1/", text)
