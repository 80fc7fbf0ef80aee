# values of random channels against exact decimals of another language: 300 of many digits, 100 of few, and the borders of 64 bits, of 16
# places and of 8 digits before the point; instants that pass seconds, a day and a year, forward and back; skipped where that isn't there
command -v python3 > /dev/null || { echo "python3 isn't here" >&2; exit 77; }
folder=$(mktemp -d)
trap 'rm -r "$folder"' EXIT
python3 - "$folder" <<'PYTHON'
import random, sys
from datetime import datetime, timedelta
from decimal import Decimal, getcontext
getcontext().prec = 400
random.seed(30)
folder = sys.argv[1]
def number(digits, places):
    units = random.randrange(-10 ** random.randrange(1, digits), 10 ** random.randrange(1, digits))
    return Decimal(units).scaleb(-random.randrange(places))
def cell(a, b, x):
    if x == 99999:
        return ""
    value = format(a * x + b, "f")
    if "." in value:
        value = value.rstrip("0").rstrip(".")
    return "0" if value in ("-0", "") else value
def pair(name, channels, samples):
    with open(f"{folder}/{name}.cfg", "w", newline="") as cfg:
        cfg.write(f"s,d,1999\r\n{len(channels)},{len(channels)}A,0D\r\n")
        for n, (a, b) in enumerate(channels, 1):
            cfg.write(f"{n},C{n},,,V,{a:f},{b:f},0,-99999,99998,1,1,P\r\n")
        cfg.write(f"50\r\n1\r\n1000,{len(samples)}\r\n01/07/2024,10:30:00.000000\r\n01/07/2024,10:30:00.001000\r\nASCII\r\n1\r\n")
    with open(f"{folder}/{name}.dat", "w", newline="") as dat:
        for n, row in enumerate(samples, 1):
            dat.write(f"{n},{(n - 1) * 1000}," + ",".join(map(str, row)) + "\r\n")
    with open(f"{folder}/{name}.wanted", "w") as wanted:
        for row in samples:
            wanted.write(",".join(cell(a, b, x) for (a, b), x in zip(channels, row)) + "\n")
def rows(count, channels, missing):
    return [[random.choice([missing, random.randrange(-99999, 99999)]) if random.random() < 0.1 else random.randrange(-99999, 99999)
             for _ in channels] for _ in range(count)]
many = [(number(14, 12), number(14, 12)) for _ in range(300)]
pair("many", many, rows(4, many, 0))
few = [(number(8, 7), random.choice([Decimal(0), number(8, 7)])) for _ in range(100)]
pair("few", few, rows(40, few, 99999))
top = 2 ** 63 - 1
borders = [(top, 0), (top, 1), (1, top), (1, top - 99998), (1, -top - 1), (1, -top), (-1, -top - 1), (top, -top - 1), (0, -top - 1), (10, top),
           (Decimal(top).scaleb(-18), 0), (Decimal(1).scaleb(-18), 0), (Decimal(1).scaleb(-18), 1), (Decimal(1).scaleb(-19), 0), (1000, Decimal(5).scaleb(-18)),
           (Decimal(1).scaleb(-16), 0), (Decimal(1).scaleb(-17), 0), (Decimal(7).scaleb(-16), 99999999), (Decimal(1).scaleb(-8), 99999999),
           (0, 99999999), (1, 99999999), (0, 100000000), (-1, -99999999), (Decimal(1).scaleb(-4), Decimal(99999999)), (Decimal("0.00390625"), 0),
           (Decimal("0.0000152587890625"), Decimal("12.5")), (Decimal(10) ** -12, 0), (Decimal(10) ** -4, 0), (Decimal(10) ** -5, 1)]
for k, (a, b) in enumerate(borders):
    pair(f"border{k}", [(Decimal(a), Decimal(b))], [[x] for x in (0, 1, -1, 2, -2, 10, 1000, -10, 99998, -99999, 99999)])
steps = [0, 400000, 1500000, 1500001, 2499999, 999999, 400000, 86400000, 1000000, 1000000]
with open(f"{folder}/instants.cfg", "w", newline="") as cfg:
    cfg.write("s,d,1999\r\n1,1A,0D\r\n1,C,,,V,1,0,0,-99999,99998,1,1,P\r\n50\r\n0\r\n0,10\r\n31/12/1999,23:59:58.500000\r\n"
              "31/12/1999,23:59:58.500000\r\nASCII\r\n1\r\n")
with open(f"{folder}/instants.dat", "w", newline="") as dat, open(f"{folder}/instants.wanted", "w") as wanted:
    for n, step in enumerate(steps, 1):
        dat.write(f"{n},{step},0\r\n")
        wanted.write(f"{datetime(1999, 12, 31, 23, 59, 58, 500000) + timedelta(microseconds=step):%Y-%m-%d %H:%M:%S.%f}\n")
PYTHON
is_same() { # is_same NAME: whether the values of this pair are those that are wanted
    "$comtrade" csv "$folder/$1" | tail -n +2 | tr -d '\r' | cut -d, -f4- | cmp - "$folder/$1.wanted"
}
is_same many && echo many same
is_same few && echo few same
for k in $(seq 0 28); do
    is_same border$k || exit 1
done
echo borders same
"$comtrade" csv "$folder/instants" | tail -n +2 | cut -d, -f2 | cmp - "$folder/instants.wanted" && echo instants same
