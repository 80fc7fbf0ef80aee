"""What --print changes in pictures: python3 check.py FOLDER"""
import re
import sys
from xml.etree import ElementTree

STYLE = re.compile(r"<style>(.*?)</style>", re.S)


def rules(style):
    """The declarations of each class, outside of media rules."""
    found = {}
    for names, body in re.findall(r"([^{}]*)\{([^{}]*)\}", style):
        for name in names.split(","):
            for part in body.split(";"):
                key, _, value = part.partition(":")
                found[name.strip(), key] = value
    return found


def is_grey(colour):
    return re.fullmatch(r"#([0-9a-f]{2})\1\1", colour) is not None


for name in ("", "both-"):
    screen, paper = (open(f"{sys.argv[1]}/{name}{kind}.svg").read() for kind in ("screen", "paper"))
    ElementTree.fromstring(paper)
    same = STYLE.sub("", screen) == STYLE.sub("", paper)
    style = STYLE.search(paper)[1]
    found = rules(style)
    drawn = {it[1] for it in re.findall(r'<(path|polyline|line|rect)[^>]*class="([a-z])"', paper)}
    missing = sorted(it for it in drawn if (f".{it}", "stroke") not in found and (f".{it}", "fill") not in found and it not in "pet")
    greys = all(is_grey(value) for (_, key), value in found.items() if key in ("fill", "stroke"))
    dashes = {found.get((f".{phase}", "stroke-dasharray"), "none") for phase in "abcn"}
    print(f"{name or 'one'}: nothing else differs: {same}; media rules: {'@media' in style}; grey: {greys}; styles of phases: {len(dashes)}; without: {missing}")
