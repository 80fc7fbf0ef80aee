#!/usr/bin/env python3
"""Reads the pages for people: documents.py PAGE.. prints what is wrong with them, and nothing where all is well.

A link within the repository has to lead to a file, and its anchor to a heading there. A name in backticks that ends in .rt has to be
the end of a path in crates/, and one that begins with a folder of cases/ has to be there, in crates/ or at the top. Sentences have 18 words at most on average, over
all pages and on each page, and lines at most 110 columns outside tables, code, pictures
and the names of files that an example stands in.
"""

import glob
import os
import re
import sys

LONGEST, MEAN = 110, 18
ENDS = r"(?<=[.?!:])[)*\"”]*\s+(?=[A-Z0-9\"'(*“C])"


def without_code(text):
    """A page without its blocks of code."""
    text = re.sub(r"^```.*?^```$", "", text, flags=re.M | re.S)
    return re.sub(r"(?<=\n\n)(?: {4}.*\n|\n)+", "", text)


def paragraphs(text):
    """Paragraphs and items of lists: no headings, tables or pictures."""
    kept = [it for it in text.split("\n") if not re.match(r"\s*(#|\||!\[|<)", it)]
    return [it for it in re.split(r"\n\s*\n|\n(?=\s*(?:[-*]|\d+\.)\s)", "\n".join(kept)) if it.strip()]


def lengths(text):
    """How many words each sentence of a page has."""
    for paragraph in paragraphs(text):
        plain = re.sub(r"`[^`]*`", "CODE", re.sub(r"^\s*(?:[-*]|\d+\.)\s+", "", paragraph))
        plain = re.sub(r"!?\[([^\]]*)\]\([^)]*\)", r"\1", plain)
        for sentence in re.split(ENDS, re.sub(r"\b(e\.g|i\.e|Std)\.", r"\1", plain)):
            if count := len(re.findall(r"[\w'’./%-]*\w[\w'’./%-]*", sentence)):
                yield count


def anchor(heading):
    """The anchor of a heading."""
    plain = re.sub(r"\[([^\]]*)\]\([^)]*\)|[`*]", r"\1", heading).strip().lower()
    return re.sub(r"[^\w\- ]", "", plain).replace(" ", "-")


def anchors_in(path):
    """The anchors of a page."""
    with open(path, encoding="utf-8") as file:
        text = re.sub(r"^```.*?^```$", "", file.read(), flags=re.M | re.S)
    return {anchor(it) for it in re.findall(r"^#+ (.*)$", text, re.M)}


def broken(page, text):
    """The links of a page that lead nowhere."""
    for link in re.findall(r"\]\(([^)\s]+)\)", text):
        path, _, place = link.partition("#")
        at = os.path.normpath(os.path.join(os.path.dirname(page), path)) if path else page
        if re.match(r"[a-z]+:", link):
            continue
        if not os.path.exists(at) or place and place not in anchors_in(at):
            yield link


def unknown(text):
    """Names of code files and cases that are not there."""
    code = [it.replace(os.sep, "/") for it in glob.glob("crates/*/src/**/*.rt", recursive=True)]
    groups = set(os.listdir("cases"))
    for name in dict.fromkeys(re.findall(r"`([\w/*.-]+)`", text)):
        if re.fullmatch(r"[a-z0-9_/]+\.rt", name):
            if not any(f"/{it}".endswith(f"/{name}") for it in code):
                yield name
        elif "/" in name and (name.startswith("cases/") or name.split("/")[0] in groups):
            if not any(glob.glob(folder + name) for folder in ("", "cases/", "crates/")):
                yield name


def main():
    every = []
    for page in sys.argv[1:]:
        with open(page, encoding="utf-8") as file:
            text = without_code(file.read())
        found = list(lengths(text))
        every += found
        if found and sum(found) > MEAN * len(found):
            print(f"{page}: {sum(found) / len(found):.1f} words in a sentence")
        for link in broken(page, text):
            print(f"{page}: no {link}")
        for name in unknown(text):
            print(f"{page}: no {name}")
        for line in text.split("\n"):
            if len(line) > LONGEST and not re.match(r"\s*(\||!\[|`crates/)", line):
                print(f"{page}: a line of {len(line)} columns: {line[:60]}")
    print(f"{len(sys.argv) - 1} pages, {'at most' if sum(every) <= MEAN * len(every) else 'more than'} {MEAN} words in a sentence")


if __name__ == "__main__":
    main()
