"""What earlier runs of bench/guards found on this machine: which wrong bodies the prover refused.

A verdict is kept under a sum of all that it rests on: the sources, definitions and proofs of the crate, the libraries below it as they
were built, the toolchain, and bench/guards itself. So it never goes stale, and a body that isn't refused is never kept. The folder lies
next to the one in which `rt ci` keeps what it proved, outside each checkout.
"""

import glob
import hashlib
import json
import os
import tempfile


def sum_of_files(sum, top, paths):
    """Adds the names and bytes of files to a sum."""
    for path in sorted(paths):
        if os.path.isfile(path):
            with open(path, "rb") as file:
                sum.update(repr((os.path.relpath(path, top), file.read())).encode())


def crates_below(top, name):
    """The crates of the repository on which a crate rests, those below them too, by the lines of crates.txt."""
    with open(f"{top}/crates.txt", encoding="utf-8") as file:
        lines = [it.partition("#")[0].partition(":") for it in file]
    uses = {head.split()[0]: rest.split() for head, _, rest in lines if head.strip()}
    found, left = set(), [name]
    while left:
        for it in uses.get(left.pop(), []):
            if it in uses and it not in found:
                found.add(it)
                left.append(it)
    return sorted(found)


def sum_of_crate(top, kit, name):
    """A sum of all that a check of a crate reads, but for its wrong bodies."""
    sum = hashlib.sha256()
    sum_of_files(sum, kit, [f"{kit}/KIT-ID", f"{kit}/WHAT"])
    for path in sorted(glob.glob(f"{kit}/bin/*")):
        found = os.stat(path)
        sum.update(f"{os.path.basename(path)} {found.st_size} {found.st_mtime_ns}".encode())
    own = [it for part in ("src", "specs", "proofs") for it in glob.glob(f"{top}/crates/{name}/{part}/**", recursive=True)]
    tools = [f"{top}/bench/{it}" for it in ("guards", "guard_store.py", "rattle_files.py")]
    below = [it for crate in crates_below(top, name) for it in glob.glob(f"{top}/crates/{crate}/out/rlib/{crate}.rlib/**", recursive=True)]
    sum_of_files(sum, top, [*own, *tools, *below])
    with open(f"{top}/crates.txt", encoding="utf-8") as file:
        sum.update("".join(it for it in file if it.startswith((f"{name}:", f"{name} "))).encode())
    return sum.hexdigest()


class Store:
    """The refused bodies of one crate, each by a sum of its texts, and where they are kept."""

    def __init__(self, top, kit, name, is_anew):
        self.folder = f"{os.path.dirname(kit)}/rattle-kept/guards"
        self.path = f"{self.folder}/{name}-{sum_of_crate(top, kit, name)}.json"
        self.refused = {} if is_anew else self.found()

    def found(self):
        """What was kept; nothing where that cannot be read."""
        try:
            with open(self.path, encoding="utf-8") as file:
                found = json.load(file)
            return found if isinstance(found, dict) else {}
        except (OSError, ValueError):
            return {}

    @staticmethod
    def key(body):
        """A sum of a body's texts and of how it is tried."""
        parts = (body.name, body.texts, body.functions, body.is_inside, sorted(body.clauses), body.is_beside, body.of)
        return hashlib.sha256(repr(parts).encode()).hexdigest()

    def keep(self, body, how):
        """Keeps that a body was refused; a machine without room keeps nothing."""
        self.refused[self.key(body)] = how
        try:
            os.makedirs(self.folder, mode=0o700, exist_ok=True)
            with tempfile.NamedTemporaryFile("w", dir=self.folder, delete=False, encoding="utf-8") as file:
                json.dump(self.refused, file)
            os.replace(file.name, self.path)
        except OSError:
            pass
