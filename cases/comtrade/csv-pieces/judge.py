"""Makes BINARY pairs and compares what `comtrade csv` prints with what follows from their numbers."""

import struct
import subprocess
import sys
from datetime import datetime, timedelta

COMTRADE, FOLDER = sys.argv[1:]
FIRST = datetime(2000, 2, 29, 23, 59, 59)
TRIGGER = 10_000  # us after the first row
ANALOG, STATUS = 40, 20
SIZE = 8 + 2 * ANALOG + 2 * 2
ROWS = 3_000_000 // SIZE
MEASURE = """
import os, subprocess, sys
child = subprocess.Popen(sys.argv[1:], stdout=subprocess.DEVNULL)
_, status, used = os.wait4(child.pid, 0)
print(status, used.ru_maxrss)
"""


def instant(us):
    return (FIRST + timedelta(microseconds=us)).strftime("%d/%m/%Y,%H:%M:%S.%f")


def configuration(name, rates):
    lines = ["Bay,DFR,1999", f"{ANALOG + STATUS},{ANALOG}A,{STATUS}D"]
    lines += [f"{i + 1},I{i},A,line,A,0.5,0,0,-32767,32767,400,1,P" for i in range(ANALOG)]
    lines += [f"{i + 1},S{i},,line,0" for i in range(STATUS)]
    lines += ["50", str(len(rates))] + [f"{rate},{last}" for rate, last in rates] + [instant(0), instant(TRIGGER), "BINARY", "1"]
    with open(f"{FOLDER}/{name}.cfg", "w", newline="") as file:
        file.write("".join(line + "\r\n" for line in lines))


def sample(i, k):
    return (i * 7 + k * 1001) % 65_535 - 32_767


def bit(i, k):
    return (i >> (k % 12)) & 1


def row(i, us, spare=0):
    word = sum(bit(i, k) << k for k in range(STATUS)) | spare << STATUS
    return struct.pack(f"<II{ANALOG}hI", i + 1, us, *(sample(i, k) for k in range(ANALOG)), word)


def make(name, rates, times, change=lambda i, made: made):
    configuration(name, rates)
    with open(f"{FOLDER}/{name}.dat", "wb") as file:
        for i, us in enumerate(times):
            file.write(change(i, row(i, us)))


def short(number, digits):
    text = f"{number:.{digits}f}"
    return text.rstrip("0").rstrip(".") if "." in text else text


def names(analog, status):
    return ",".join(["row", "instant", "ms since trigger", *(f"I{k} [A]" for k in analog), *(f"S{k}" for k in status)]) + "\r\n"


def line(number, i, us, analog, status):
    at = (FIRST + timedelta(microseconds=us)).strftime("%Y-%m-%d %H:%M:%S.%f")
    values = [short(sample(i, k) / 2, 1) for k in analog]
    return ",".join([str(number), at, short((us - TRIGGER) / 1000, 3), *values, *(str(bit(i, k)) for k in status)]) + "\r\n"


def expected(times, first=0, last=None, analog=range(ANALOG), status=range(STATUS)):
    rows = range(first, len(times) if last is None else last)
    return names(analog, status) + "".join(line(i - first + 1, i, times[i], analog, status) for i in rows)


def run(*words):
    done = subprocess.run([COMTRADE, "csv", *words], capture_output=True)
    return done.stdout.decode(), done.stderr.decode().replace(FOLDER + "/", ""), done.returncode


def same(what, wanted, *words):
    out, said, status = run(*words)
    print(f"{what}: {'same' if (out, said, status) == (wanted, '', 0) else f'differs ({status}) {said}'}")


def main():
    one = [250 * i for i in range(ROWS)]
    name = f"{FOLDER}/one"
    make("one", [(4000, ROWS)], one)
    same("all rows", expected(one), name)
    same("read strictly", expected(one), "--strict", name)
    same("from a row to a row", expected(one, 13_000, 13_005), "--from", "row 13001", "--to", "row 13005", name)
    same("a part of several pieces", expected(one, 4_000, 31_000), "--from", "row 4001", "--to", "row 31000", name)
    same("from a time on", expected(one, 30_040), "--from", "7500", name)
    same("channels", expected(one, analog=(3, 39), status=(1, 19)), "--channels", "I3,I39,S1,S19", name)
    print(*run("--from", "row 99999999", name))
    print(*run("--from", "yesterday", name))
    print(*run("--channels", "U", name))

    half = ROWS // 2
    two = [250 * min(i, half) + 1000 * max(i - half, 0) for i in range(ROWS)]
    make("two", [(4000, half), (1000, ROWS)], two)
    same("two rates", expected(two), f"{FOLDER}/two")
    same("a part of two rates", expected(two, half - 2, half + 3), "--from", f"row {half - 1}", "--to", f"row {half + 3}", f"{FOLDER}/two")
    new = [250 * min(i, half - 1) + 1000 * max(i - half + 1, 0) for i in range(ROWS)]
    make("new", [(4000, half), (1000, ROWS)], new)
    same("two rates, the border at the new one", expected(new), f"{FOLDER}/new")

    last = ROWS - 1
    make("spare", [(4000, ROWS)], one, lambda i, made: row(i, one[i], 1) if i == last else made)
    out, said, status = run(f"{FOLDER}/spare")
    print("spare bits:", said.strip(), status, out.count("\n") - 1 == ROWS)
    make("falling", [(4000, ROWS)], one, lambda i, made: row(i, 5) if i == last else made)
    out, said, status = run(f"{FOLDER}/falling")
    print("a stamp that falls:", said.strip(), status, out.count("\n") - 1 == ROWS)
    same("a stamp that falls, read strictly", expected(one), "--strict", f"{FOLDER}/falling")

    many = 24_000_000 // SIZE
    make("many", [(4000, many)], (250 * i for i in range(many)))
    # a process starts with the peak of the one that forked it, so a small one starts and measures this
    child = subprocess.run([sys.executable, "-c", MEASURE, COMTRADE, "csv", f"{FOLDER}/many"], capture_output=True)
    status, peak = child.stdout.split()
    print("24 MB:", status.decode(), "at most as much memory" if int(peak) * 1024 < 24_000_000 else f"{peak.decode()} kB")

    long = 600_000_000 // SIZE
    configuration("long", [(4000, long)])
    with open(f"{FOLDER}/long.dat", "wb") as file:
        file.truncate(long * SIZE)
    out, said, status = run("--strict", "--from", f"row {long - 1}", "--channels", "I0,S0", f"{FOLDER}/long")
    zeros = [(FIRST + timedelta(microseconds=250 * i), short((250 * i - TRIGGER) / 1000, 3)) for i in (long - 2, long - 1)]
    wanted = names((0,), (0,)) + "".join(f"{n + 1},{at:%Y-%m-%d %H:%M:%S.%f},{ms},0,0\r\n" for n, (at, ms) in enumerate(zeros))
    print("600 MB:", "same" if (out, said, status) == (wanted, "", 0) else f"differs ({status}) {out} {said}")


main()
