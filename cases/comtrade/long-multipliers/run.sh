# multipliers and offsets of up to 36 digits: each value of csv against Python's fractions. It is exact where both terms and the sum have at
# most 36 digits, and else within a 10^25th of the greater term. One digit more is refused. Skipped where python3 isn't there
exec 2>&1
command -v python3 > /dev/null || { echo "python3 isn't here" >&2; exit 77; }
folder=$(mktemp -d)
trap 'rm -r "$folder"' EXIT
python3 - "$comtrade" "$folder" <<'PYTHON'
import random, subprocess, sys
from fractions import Fraction

comtrade, folder = sys.argv[1:]
draw = random.Random(36)


def decimal(digits):
    """A decimal of so many digits: as text, and its units and places."""
    units = draw.randrange(10 ** (digits - 1), 10**digits)
    places = draw.randrange(0, digits + 8)
    text = str(units).rjust(places + 1, "0")
    text = text[: len(text) - places] + ("." + text[len(text) - places :] if places else "")
    sign = draw.choice([1, -1])
    return ("-" if sign < 0 else "") + text, sign * units, places


def write(a, b, samples):
    with open(f"{folder}/it.cfg", "w") as it:
        it.write(f"S,D,1999\n1,1A,0D\n1,UA,A,,kV,{a},{b},0,-32767,32767,1,1,P\n50\n1\n1000,{len(samples)}\n")
        it.write("01/01/2024,00:00:00.000000\n01/01/2024,00:00:00.000000\nASCII\n1\n")
    with open(f"{folder}/it.dat", "w") as it:
        for i, x in enumerate(samples):
            it.write(f"{i + 1},{i * 1000},{x}\n")
    return subprocess.run([comtrade, "csv", f"{folder}/it"], capture_output=True, text=True)


def is_short(a, b, x):
    """Whether both terms and their sum have at most 36 digits, at the places of the finer number."""
    places = max(a[2], b[2])
    product, offset = a[1] * x * 10 ** (places - a[2]), b[1] * 10 ** (places - b[2])
    return all(abs(n) < 10**36 for n in (a[1] * x, product, offset, product + offset))


exact = near = wrong = 0
for digits in list(range(20, 37)) * 6:
    a, b = decimal(digits), decimal(draw.randrange(1, 37))
    samples = [32767, -32766, 1] + [draw.randrange(-32767, 32768) for _ in range(5)]
    lines = write(a[0], b[0], samples).stdout.splitlines()[1:]
    for x, line in zip(samples, lines, strict=True):
        product, offset = Fraction(a[1], 10 ** a[2]) * x, Fraction(b[1], 10 ** b[2])
        error = abs(Fraction(line.split(",")[3]) - (product + offset))
        if is_short(a, b, x) and error == 0:
            exact += 1
        elif not is_short(a, b, x) and error * 10**25 <= max(abs(product), abs(offset)):
            near += 1
        else:
            wrong += 1
            print("wrong:", a[0], b[0], x, line)
print("exact and near:", 0 < exact, 0 < near, exact + near, "wrong:", wrong)
refused = write("1" * 38, "0", [1])
print(refused.returncode, refused.stderr.split(": ", 1)[1], end="")
PYTHON
