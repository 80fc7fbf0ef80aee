"""The functions of a crate's files, as `rt fmt` lays them out: where their bodies stand, what the prover calls them, and files in which
they have none, or in which one has a copy."""

import glob
import os
import re

# The head of a function: its indentation, `const` where it is, and its name.
FUNCTION = r'^( *)(?:pub(?:\([\w ]+\))? )?(const )?(?:unsafe )?(?:extern "C" )?fn (\w+)'


def read(path):
    with open(path, encoding="utf-8") as file:
        return file.read()


def modules_of(path):
    return [it for it in path[4:-3].split("/") if it not in ("lib", "main")]


def function_at(path, text, place):
    """The function in which a place of a file stands, by the end of the prover's name: module::function, TypeTrait::function, or empty."""
    functions = list(re.finditer(FUNCTION, text[:place], re.M))
    if not path.startswith("src/") or not functions or re.search(r"^}$", text[functions[-1].start():place], re.M):
        return ""
    head = impl_at(text, functions[-1].start())
    above = [type_of(head)] if head else modules_of(path)  # (a method's path is that of its type, wherever its `impl` stands)
    return "::".join([*above, functions[-1][3]])


def impl_at(text, place):
    """What follows `impl` at the head of the one in which a place stands."""
    heads = list(re.finditer(r"^(?:unsafe )?impl\b([^{]*)\{", text[:place], re.M))
    return heads[-1][1] if heads and not re.search(r"^}$", text[heads[-1].end():place], re.M) else ""


def type_of(head):
    """What the prover calls the type of an `impl`: `<A> Iterator for Lines<A> where ..` is LinesIterator, `Outlet<Recording> for Exports` is
    ExportsOutletRecording."""
    plain, was = head.partition(" where ")[0].partition("\nwhere")[0], ""
    while plain != was:
        plain, was = re.sub(r"<[^<>]*>", "", plain.replace("->", "")), plain
    words = [re.sub(r"[^\w]", "", it.rpartition("::")[2]) for it in plain.split(" for ")]
    return "".join(reversed(words)) + "".join(types_in_trait(head))


def types_in_trait(head):
    """The types that the trait of an `impl` is over, but for its own parameters: `<A> Intake<A, Recording> for Feed<A>` has Recording."""
    trait = re.match(r"\s*(?:<(.*?)>\s+)?\w+<([^<>]*)>\s+for\s", head, re.S)
    own = set(re.findall(r"\w+", trait[1] or "")) if trait else set()
    return [it.strip() for it in trait[2].split(",") if it.strip() not in own and not it.strip().startswith("'")] if trait else []


def without_bodies(crate, folder, functions):
    """The files of a crate in which all functions but these have an empty body and a hole for a proof, each with its text, or None where it
    goes. Left as they are: constant ones, ones that answer an `impl`, and methods of types that aren't the crate's or of traits with types."""
    sources = {os.path.relpath(it, folder): read(it) for it in glob.glob(f"{folder}/src/**/*.rt", recursive=True)}
    types, files = types_of(folder), {}
    for path, text in sources.items():
        lines = text.split("\n")
        for head in reversed(list(re.finditer(FUNCTION, text, re.M))):
            at, impl = text.count("\n", 0, head.start()), impl_at(text, head.start())
            body, name = body_of(lines, at, head[1]), function_at(path, text, head.end())
            place = place_of(name, impl, modules_of(path), types)
            if name in functions or not body or not place or head[2] or "impl " in " ".join(lines[at:body[0] + 1]):
                continue
            lines[body[0] + 1:body[1]] = [f"{head[1]}    loop {{}}"]
            files |= {f"proofs/{'/'.join(place)}/{it}.antt": None for it in ("Answers", "Invariants")}
            files[f"proofs/{'/'.join(place)}/Proof.antt"] = HOLE.format(module=".".join(["Rattle", crate, "proofs", *place]), name=head[3])
        files[path] = "\n".join(lines)
    return files


def with_copy(crate, folder, path, function, copy, texts, into=None):
    """The files of a crate's other copy `into` with one more function: the same as one of `folder` under another name, its proof too, with other
    texts. Nothing where it can't have a copy, as a trait's method."""
    text, now = read(f"{folder}/{path}"), read(f"{into or folder}/{path}")
    first, last = lines_of(path, text, function)
    impl = impl_at(text, text.index("\n".join(text.split("\n")[first:last + 1])))
    types = types_of(folder)
    place = place_of(function, impl, modules_of(path), types)
    if not last or not place or " for " in impl:
        return {}
    made = "\n".join(text.split("\n")[first:last + 1])
    for _, old, new in texts:
        made = made.replace(old, new)
    own, name = function.rpartition("::")[2], copy.rpartition("::")[2]
    made, lines, after = re.sub(rf"\bfn {own}\b", f"fn {name}", made, count=1), now.split("\n"), lines_of(path, now, function)[1]
    lines[after + 1:after + 1] = ["", *made.split("\n")]
    files = {path: "\n".join(lines)}
    for it in glob.glob(f"{folder}/proofs/{'/'.join(place)}/*.antt"):
        proof = read(it).replace(f"proofs.{'.'.join(place)}.", f"proofs.{'.'.join([*place[:-1], name])}.")
        files[f"proofs/{'/'.join([*place[:-1], name])}/{os.path.basename(it)}"] = proof
    return files


def lines_of(path, text, function):
    """The first and the last line of a function, without its comment; the last is 0 where that isn't known."""
    for head in re.finditer(FUNCTION, text, re.M):
        if function_at(path, text, head.end()) == function:
            at = text.count("\n", 0, head.start())
            return at, (body_of(text.split("\n"), at, head[1]) or (0, 0))[1]
    return 0, 0


def types_of(folder):
    """The module of each type of a crate."""
    sources = {os.path.relpath(it, folder): read(it) for it in glob.glob(f"{folder}/src/**/*.rt", recursive=True)}
    heads = r"^(?:pub(?:\(\w+\))? )?(?:struct|enum) (\w+)"
    return {it: modules_of(path) for path, text in sources.items() for it in re.findall(heads, text, re.M)}


HOLE = "use {module}.Statement as stated\n\npub {name}_spec : {{M : Type 1}} → stated.statement M\n{name}_spec = ?\n"


def body_of(lines, at, indent):
    """The first and the last line of the body of a function whose head begins at a line, as `rt fmt` lays them out; None for one without."""
    has_clause = False
    for place in range(at, len(lines)):
        has_clause |= bool(re.match(rf"{indent}    (requires|ensures|ghost|decreases)\b", lines[place]))
        if lines[place] == indent + "{" or not has_clause and lines[place].endswith(" {"):
            last = lines.index(indent + "}", place)
            return None if any('r#' in it for it in lines[place:last]) else (place, last)  # (a raw text has lines of its own)
        said = "".join(lines[at:place + 1])
        if lines[place].endswith((";", "{}")) and said.count("{") == said.count("}") or not has_clause and lines[place].endswith("}"):
            return None


def place_of(name, impl, modules, types):
    """The folder of a function's proof: its module's, or that of the module of its type; None where that isn't the crate's, or the trait has types."""
    own = name.split("::")
    if not impl:
        return own
    of = type_of(impl.rpartition(" for ")[2])
    return None if of not in types or re.search(r"\w<.*> for ", impl) else [*types[of], *own]
