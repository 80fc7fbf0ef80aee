# the Python package: names of new pairs (dots, endings, files that exist), the search for a pair, files to import first; without the library
exec 2>&1
folder=$(mktemp -d)
trap 'rm -r "$folder"' EXIT
module=$PWD/../python/dfr_comtrade/_files.py relays=$PWD/../examples/relays
cat > "$folder/names.py" <<'PY'
import importlib.util
import os
import sys

spec = importlib.util.spec_from_file_location("files", sys.argv[1])
files = importlib.util.module_from_spec(spec)
spec.loader.exec_module(files)
os.mkdir("records")
os.chdir("records")


def tried(call, *words):
    try:
        return call(*words)
    except (OSError, ValueError) as error:
        return f"{type(error).__name__}: {error}"


def write(name, text, overwrite=False):
    done = tried(lambda: files.save_pair(files.new_pair(name, overwrite), text + b" cfg", text + b" dat", overwrite))
    print(f"write {name!r}{' overwrite' if overwrite else ''}: {done or 'done'}")


def show():
    for name in sorted(os.listdir()):
        with open(name, "rb") as file:
            print(f"  {name}: {file.read().decode()}")
        os.unlink(name)


print("== dots and endings")
for name in ("20240701T103000.350625-1", "20240701T103000.350625-2.cfg", "x.cfg", "y.DAT", "z.cff", ".cfg", "", "none/x"):
    write(name, b"new")
show()

print("== files that exist")
for there in ("x.cfg", "x.dat"):
    with open(there, "wb") as file:
        file.write(b"old")
    write("x", b"new")
    show()
write("x", b"old")
write("x.dat", b"new", True)
show()

print("== the search for a pair")
for there, names in (
    ("a.cfg a.dat", "a a.cfg a.dat A a.txt b"),
    ("REC1.CFG REC1.DAT", "rec1 REC1.DAT rec1.cfg"),
    ("b.CFG B.Dat", "b b.CFG B.Dat"),
    ("c.cfg c.dat C.CFG C.DAT", "c C C.CFG"),
    ("c.d.cfg c.d.dat c.cfg", "c.d c"),
    ("alone.cfg", "alone alone.dat"),
    ("one.CFF", "one one.CFF one.dat"),
):
    for name in there.split():
        open(name, "wb").close()
    print(there)
    for name in names.split():
        found = tried(files.pair_of, name)
        print(f"  {name}: {found if isinstance(found, str) else found[0] + (', ' + found[1] if found[1] else ': ' + files.single_text(found[0]))}")
    for name in there.split():
        os.unlink(name)

print("== files to import first")
for name in sorted(os.listdir(sys.argv[2])):
    if name.lower().endswith((".cfg", ".cff")):
        with open(os.path.join(sys.argv[2], name), "rb") as file:
            print(f"{name}: {files.import_hint(file.read()) or 'no hint'}")
PY
cd "$folder" && python3 -B names.py "$module" "$relays"
