"""Completions for bash, zsh and fish of a program that tools/manuals has read."""
import re

MADE = "Made by tools/manuals; do not edit."
KINDS = {"DIR": "folders", "SETUP": "files", "SCRIPT": "files", "LINES": "files", "COMMAND": "commands"}  # all others: records
WORDS = {"START": ("now",)}  # values that the help gives in words
PATHS = "PATH", "FILE"  # the values that are names of files

class Part:
    """What may follow a command, or a program without commands."""

    def __init__(self, command, keys):
        self.name, self.about = command.name, command.about
        values = {"KEY": keys, **WORDS}
        self.options = [(o, o.choices or values.get(o.value, ())) for o in command.options]
        self.flags = [flag for o in command.options for flag in o.flags]
        self.valued = [o.flags[-1] for o in command.options if o.value]
        self.places = [(a.name, KINDS.get(a.name, "records")) for a in command.arguments]
        self.more = self.places[-1][1] if command.arguments and command.arguments[-1].many else ""

def files_of(program, commands, keys):
    top, parts = Part(program, keys), [Part(c, keys) for c in commands]
    yield f"{program.name}.bash", bash(top, parts)
    yield f"_{program.name}", zsh(top, parts)
    yield f"{program.name}.fish", fish(top, parts)

def wrapped(words, indent, width=100):
    """Words as lines of at most so many characters."""
    lines = [""]
    for word in words:
        if lines[-1] and len(indent) + len(lines[-1]) + len(word) + 1 > width:
            lines.append("")
        lines[-1] += (" " if lines[-1] else "") + word
    return ("\n" + indent).join(lines)

def kinds_of(top, parts):
    """All kinds of arguments that a program completes."""
    return {kind for part in parts or [top] for _, kind in part.places} | ({"commands"} if parts else set())

# bash

BASH = r"""# Completion of NAME for bash. MADE
_NAME() {
    local cur=${COMP_WORDS[COMP_CWORD]} first=FIRST place=0 more='' only='' option='' flags='' valued=''
    local -a places=()
    local i word
    COMPREPLY=()
    [ "$cur" != = ] || cur=''
CASES
    for ((i = first; i < COMP_CWORD; i++)); do
        word=${COMP_WORDS[i]} option=''
        if [ -n "$only" ] || [[ $word != -?* ]]; then
            place=$((place + 1))
        elif [ "$word" = -- ]; then
            only=yes
        elif [[ " $valued " == *" $word "* ]]; then
            option=$word i=$((i + 1))
            [ "${COMP_WORDS[i]-}" != = ] || i=$((i + 1))
        fi
    done
    [ "$i" -gt "$COMP_CWORD" ] || option=''
    word=''
    if [ -n "$option" ]; then
        case $option in
VALUES
        *) compopt +o default 2> /dev/null; return ;;
        esac
    elif [[ -z $only && $cur == -* ]]; then
        word=$flags
    else
        case ${places[place]:-$more} in
BRANCHES
        *) compopt +o default 2> /dev/null; return ;;
        esac
    fi
    mapfile -t COMPREPLY < <(compgen -W "$word" -- "$cur")
}
complete -o default -F _NAME NAME
"""

BRANCHES = {
    "commands": "commands) word='COMMANDS' ;;",
    "folders": """folders)
            compopt -o filenames 2> /dev/null
            mapfile -t COMPREPLY < <(compgen -d -- "$cur")
            return
            ;;""",
    "records": """records) # if there are none, bash offers all files
            compopt -o filenames 2> /dev/null
            mapfile -t COMPREPLY < <(
                compgen -d -- "$cur"
                for pattern in '*.[cC][fF][gG]' '*.[dD][aA][tT]' '*.[cC][fF][fF]'; do
                    compgen -f -X "!$pattern" -- "$cur"
                done
            )
            return
            ;;""",
    "files": "files) return ;;",
}

def bash_part(part, indent):
    lines = [f"flags='{wrapped(part.flags, indent + ' ' * 7)}'"] if part.flags else []
    lines += [f"valued='{' '.join(part.valued)}'"] if part.valued else []
    lines += [f"places=({' '.join(kind for _, kind in part.places)})"] if part.places else []
    lines += [f"more={part.more}"] if part.more else []
    return "".join(f"{indent}{line}\n" for line in lines) or f"{indent}:\n"

def bash(top, parts):
    cases = bash_part(top, "    ").rstrip("\n")
    if parts:
        whole = Part.__new__(Part)
        whole.__dict__.update(top.__dict__, places=[("COMMAND", "commands")])
        cases = "    [ \"$COMP_CWORD\" -gt 1 ] && word=${COMP_WORDS[1]} || word='' first=1\n"
        cases += "    case $word in\n    '')\n"
        cases += bash_part(whole, " " * 8) + "        ;;\n"
        cases += "".join(f"    {p.name})\n{bash_part(p, ' ' * 8)}        ;;\n" for p in parts) + "    esac"
    values = {}
    for part in parts or [top]:
        for option, words in part.options:
            if words:
                values[option.flags[-1]] = f"word='{wrapped(words, ' ' * 12)}'"
            elif option.value in PATHS:
                values[option.flags[-1]] = "return"
    lines = "\n".join(f"        {flag}) {text} ;;" for flag, text in values.items())
    used = kinds_of(top, parts)
    branches = "\n".join(" " * 8 + text for kind, text in BRANCHES.items() if kind in used)
    filled = {"NAME": top.name, "_NAME": f"_{top.name}", "MADE": MADE, "FIRST": "2" if parts else "1",
              "CASES": cases, "VALUES": lines, "BRANCHES": branches.replace("COMMANDS", " ".join(p.name for p in parts))}
    return re.sub(r"\b(_?NAME|MADE|FIRST|CASES|VALUES|BRANCHES)\b", lambda m: filled[m[0]], BASH)

# zsh

def quoted(text):
    return "'" + text.replace("'", "'\\''") + "'"

def zsh_action(kind, name):
    return {"folders": "_files -/", "files": "_files"}.get(kind, f"_{name}_{kind}")

def zsh_specs(part, name):
    """The words of _arguments."""
    for option, words in part.options:
        text = re.sub(r"([\\\[\]:])", r"\\\1", option.text)
        value = f":{option.value}:" if option.value else ""
        value += f"({' '.join(words)})" if words else "_files" if option.value in PATHS else " " if value else ""
        for flag in option.flags:
            rest = "" if flag not in ("-h", "--help", "-V", "--version") else "(- *)"
            yield quoted(f"{'*' if option.many else ''}{rest}{flag}{'=' if option.value else ''}[{text}]{value}")
    for number, (place, kind) in enumerate(part.places, 1):
        many = part.more and number == len(part.places)
        yield quoted(f"{'*' if many else number}:{place}:{zsh_action(kind, name)}")

def zsh_call(part, name, indent):
    specs = list(zsh_specs(part, name))
    lines = "".join(f" \\\n{indent}    {spec}" for spec in specs)
    return f"{indent}_arguments -S{lines}\n" if specs else f"{indent}:\n"

def zsh(top, parts):
    name = top.name
    text = f"#compdef {name}\n# Completion of {name} for zsh. {MADE}\n\n"
    if "records" in kinds_of(top, parts):
        text += f"_{name}_records() {{\n    _files \"$@\" -g '(#i)*.(cfg|dat|cff)'\n}}\n\n"
    if not parts:
        return text + f"_{name}() {{\n{zsh_call(top, name, '    ')}}}\n\n_{name} \"$@\"\n"
    text += f"_{name}_commands() {{\n    local -a commands=(\n"
    text += "".join(f"        {quoted(p.name + ':' + p.about.replace(':', chr(92) + ':'))}\n" for p in parts)
    text += "    )\n    _describe command commands\n}\n\n"
    text += f"_{name}() {{\n    local curcontext=$curcontext state line\n"
    specs = list(zsh_specs(top, name)) + [quoted(f"1:command:_{name}_commands"), quoted("*::argument:->arguments")]
    text += "    _arguments -C -S" + "".join(f" \\\n        {spec}" for spec in specs) + " && return\n"
    text += "    [[ $state == arguments ]] || return\n    case $words[1] in\n"
    text += "".join(f"    {p.name})\n{zsh_call(p, name, ' ' * 8)}        ;;\n" for p in parts)
    return text + f"    esac\n}}\n\n_{name} \"$@\"\n"

# fish

FISH = {
    "commands": r"""
# whether the line has one of these commands; without any, whether it has none
function __NAME_has
    set -l words (commandline -opc)
    if set -q words[2]
        contains -- $words[2] $argv
    else
        not set -q argv[1]
    end
end
""",
    "places": r"""
# whether so many arguments come before the word
function __NAME_at
    set -l words (commandline -opc)
    set -e words[FIRST]
    set -l place 0
    while set -q words[1]
        if contains -- $words[1] VALUED
            set -e words[1]
        else if not string match -q -- '-*' $words[1]
            set place (math $place + 1)
        end
        set -e words[1]
    end
    contains $place $argv
end
""",
    "records": r"""
# the records and folders, or all files if there are none
function __NAME_records
    set -l found (__fish_complete_path (commandline -ct))
    set -l records (string match -ri -- '^.*(?:\.cfg|\.dat|\.cff|/)(?:\t.*)?$' $found)
    if set -q records[1]
        printf '%s\n' $records
    else
        printf '%s\n' $found
    end
end
""",
}

def fish_text(text):
    return "'" + text.replace("\\", "\\\\").replace("'", "\\'") + "'"

def fish(top, parts):
    name = top.name
    used, each = kinds_of(top, parts) | {"places"}, parts or [top]
    valued = " ".join(dict.fromkeys(flag for p in each for flag in p.valued))
    filled = {"NAME": name, "FIRST": "1..2" if parts else "1", "VALUED": valued}
    text = f"# Completion of {name} for fish. {MADE}\n"
    text += "".join(body for kind, body in FISH.items() if kind in used)
    text = re.sub(r"(?<=__)NAME|\b(FIRST|VALUED)\b", lambda m: filled[m[0]], text) + f"\ncomplete -c {name} -f\n"
    offers = {"commands": f"-a {fish_text(' '.join(p.name for p in parts))}", "files": "-F",
              "records": f"-a '(__{name}_records)'",
              "folders": "-a '(__fish_complete_directories (commandline -ct))'"}
    for part in parts:
        text += f"complete -c {name} -n __{name}_has -a {part.name} -d {fish_text(part.about)}\n"
    options, arguments = {}, {}
    for part in [top, *parts]:
        for option, words in part.options:
            options.setdefault((option, tuple(words)), []).append("" if part is top else part.name)
    for part in each:
        for kind in dict.fromkeys(kind for _, kind in part.places):
            places = " ".join(str(n) for n, (_, k) in enumerate(part.places) if k == kind)
            many = part.more == kind
            arguments.setdefault((kind, "" if many else f"__{name}_at {places}"), []).append(part.name)
    for (option, words), names in options.items():
        line = f"complete -c {name}"
        everywhere = not parts or names[0] == "" != names[-1]
        line += "" if everywhere else f" -n {fish_text(' '.join([f'__{name}_has', *filter(None, names)]))}"
        line += "".join(f" -l {flag[2:]}" if flag.startswith("--") else f" -s {flag[1:]}" for flag in option.flags)
        line += " -r -F" if option.value in PATHS else " -x" if option.value else ""
        line += f" -a {fish_text(' '.join(words))}" if words else ""
        text += line + f" -d {fish_text(option.text)}\n"
    for (kind, at), names in arguments.items():
        when = "; and ".join(filter(None, [f"__{name}_has {' '.join(names)}" if parts else "", at]))
        text += f"complete -c {name} -n {fish_text(when)} {offers[kind]}\n"
    return text
