"""The options of each command that no case uses: python3 options.py COMTRADE"""
import pathlib
import re
import subprocess
import sys

GENERAL = {"--help", "--version"}
SHORT = {"--output": "-o", "--recursive": "-r"}


def said(*words):
    return subprocess.run([sys.argv[1], *words], capture_output=True, text=True).stdout


def helpers(text):
    """The functions of a script that call the program, each with the commands that it calls."""
    for name, body in re.findall(r"^(\w+)\(\) \{(.*?)^\}", text, re.M | re.S):
        commands = re.findall(r'"\$comtrade" ([a-z]+)', body)
        if commands:
            yield name, " ".join(commands)


def lines():
    """The lines of all cases that call a command; where they call a function that does so, with its commands in front."""
    for path in pathlib.Path(".").rglob("*"):
        if path.suffix in (".sh", ".bash", ".py") and path.is_file() and path.parts[:2] != ("comtrade", "options"):
            text = path.read_text().replace("\\\n", " ")
            known = dict(helpers(text))
            for line in text.splitlines():
                word = line.split()[0] if line.split() else ""
                yield known.get(word, "") + " " + line


def is_used(text, command, option):
    """Whether a line has the command before the option, as a word or in quotation marks."""
    names = "|".join(re.escape(it) for it in (option, SHORT.get(option)) if it)
    return any(re.search(rf"\b{command}\b.*(?<![\w-])({names})(?![\w-])", line) for line in text)


def main():
    commands = re.findall(r"^  ([a-z]+) ", said("--help").split("Commands:")[1].split("Options:")[0], re.M)
    text, count = list(lines()), 0
    for command in commands:
        if command == "help":
            continue
        for option in sorted(set(re.findall(r"(?<![\w-])--[a-z][a-z-]*", said(command, "--help").split("Options:")[1].split("\n\n")[0])) - GENERAL):
            count += 1
            if not is_used(text, command, option):
                print(f"{command} {option}: no case")
    print("options found:", "some" if count > 60 else count)


main()
