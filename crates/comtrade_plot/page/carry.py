#!/usr/bin/env python3
"""Writes page.js and page.css into src/script_text.rt and src/style_text.rt, from which the
program prints them. With `check` it only reports whether the copies there are up to date."""

import pathlib
import sys

HERE = pathlib.Path(__file__).parent


def carried(name, function, what):
    text = (HERE / name).read_text()
    assert text.isascii() and '"##' not in text and "\r" not in text, name
    return f'//! {what}, written by `page/carry.py`.\n\n/// {what}.\npub fn {function}() -> &\'static str {{\n    r##"{text}"##\n}}\n'


def main():
    for name, function, what in (("page.js", "script", "The script of a page, `page/page.js`"), ("page.css", "style", "The style of a page, `page/page.css`")):
        target, text = HERE.parent / "src" / f"{function}_text.rt", carried(name, function, what)
        if sys.argv[1:] == ["check"]:
            print(name, "is carried" if target.read_text() == text else "differs: run page/carry.py")
        else:
            target.write_text(text)


main()
