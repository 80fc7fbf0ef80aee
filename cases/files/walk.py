#!/usr/bin/env python3
"""Runs the console blocks of a page, and prints each difference from what the page shows: walk.py PAGE

A block is fenced as console. A line that begins with `$ ` is a command (a line ended by a backslash goes on in the next one); the
lines after it are what it prints, on standard output and standard error. A line that is only `..` stands for any lines. All blocks
of a page run in one shell, in a temporary folder that has a copy of examples/, with the programs of this checkout on the PATH.
"""

import os
import re
import shutil
import subprocess
import sys
import tempfile

TOP = os.path.dirname(os.path.dirname(os.path.dirname(os.path.realpath(__file__))))
END = "\x01end of a command\x01"


def steps_of(page):
    """Each command of the console blocks of a page with the lines that it is to print."""
    steps = []
    with open(page, encoding="utf-8") as file:
        for block in re.findall(r"^```console\n(.*?)^```$", file.read(), re.M | re.S):
            is_open = False
            for line in block.splitlines():
                if is_open:
                    steps[-1][0] += "\n" + line
                elif line.startswith("$ "):
                    steps.append([line[2:], []])
                else:
                    steps[-1][1].append(line)
                    continue
                is_open = line.endswith("\\")
    return steps


def printed_by(commands, folder):
    """What each command prints, all run in one shell."""
    script = "".join(f"{{\n{it}\n}} 2>&1 < /dev/null\nprintf '%s\\n' '{END}'\n" for it in commands)
    programs = {os.environ.get(it) or f"{TOP}/crates/{it}/out/{it}" for it in ("dfr", "dfrd", "comtrade")}
    path = ":".join(os.path.dirname(it) for it in sorted(programs)) + ":" + os.environ["PATH"]
    run = subprocess.run(["bash", "-c", script], cwd=folder, env={**os.environ, "PATH": path, "TZ": "UTC"},
                         stdout=subprocess.PIPE, stderr=subprocess.STDOUT, timeout=150)
    return [it.splitlines() for it in run.stdout.decode(errors="replace").split(END + "\n")]


def matches(wanted, got):
    """Whether lines are the wanted ones, where `..` stands for any."""
    if not wanted:
        return not got
    if wanted[0] == "..":
        return any(matches(wanted[1:], got[at:]) for at in range(len(got) + 1))
    return bool(got) and wanted[0].rstrip() == got[0].rstrip() and matches(wanted[1:], got[1:])


def main():
    page = sys.argv[1]
    steps = steps_of(page)
    with tempfile.TemporaryDirectory(prefix="walk-") as folder:
        shutil.copytree(f"{TOP}/examples", f"{folder}/examples")
        got = printed_by([command for command, _ in steps], folder)
    differences = 0
    for (command, wanted), lines in zip(steps, got):
        if not matches(wanted, lines):
            differences += 1
            print(f"{os.path.basename(page)}: $ {command}", "--- the page has", *wanted, "--- it prints", *lines, sep="\n")
    print(f"{os.path.basename(page)}: {len(steps)} commands, {differences} differences")
    return differences != 0


if __name__ == "__main__":
    sys.exit(main())
