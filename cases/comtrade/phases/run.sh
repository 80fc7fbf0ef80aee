# which channels are three phases: by the phase field, by ids, in any order; none where a phase has two channels. Balanced
# currents of 100 A (50 Hz, 20 rows a cycle) have a positive sequence of 100 A and nothing else; currents in kA are listed
# too, and the greatest is told by amperes
exec 2>&1
command -v python3 > /dev/null || { echo "python3 isn't here" >&2; exit 77; }
folder=$(mktemp -d)
trap 'rm -r "$folder"' EXIT
python3 - "$folder" <<'END'
import math, sys

def pair(name, channels, units="A"):
    """Channels by id, phase field and what they measure: phase A, B or C of bay 1 (100 A) or 2 (50 A)."""
    lines = ["Bay,DFR,1999", "%d,%dA,0D" % (len(channels), len(channels))]
    for n, (id, phase, what) in enumerate(channels, 1):
        lines.append("%d,%s,%s,,%s,0.01,0,0,-32000,32000,600,1,P" % (n, id, phase, units if isinstance(units, str) else units[n - 1]))
    lines += ["50", "1", "1000,40", "01/01/2024,00:00:00.000000", "01/01/2024,00:00:00.000000", "ASCII", "1"]
    open(f"{sys.argv[1]}/{name}.cfg", "w").write("\r\n".join(lines) + "\r\n")
    with open(f"{sys.argv[1]}/{name}.dat", "w") as file:
        for row in range(40):
            cells = []
            for _, _, what in channels:
                size = {"1": 100, "2": 50}[what[1]] * math.sqrt(2) * 100
                turn = 2 * math.pi * (row / 20 - {"A": 0, "B": 1, "C": 2}[what[0]] / 3)
                cells.append(str(round(size * math.cos(turn))))
            file.write(",".join([str(row + 1), str(row * 1000)] + cells) + "\r\n")

pair("fields", [("x", "A", "A1"), ("y", "B", "B1"), ("z", "C", "C1")])
pair("ids", [("IL1", "", "A1"), ("IL2", "", "B1"), ("IL3", "", "C1"), ("IN", "", "A1")])
pair("backwards", [("IC", "", "C1"), ("IB", "", "B1"), ("IA", "", "A1")])
pair("bays", [("one", "A", "A1"), ("one", "B", "B1"), ("one", "C", "C1"), ("two", "A", "A2"), ("two", "B", "B2"), ("two", "C", "C2")])
pair("mixed", [("one", "A", "A1"), ("two", "A", "A2"), ("one", "B", "B1"), ("two", "B", "B2"), ("one", "C", "C1"), ("two", "C", "C2")])
pair("lines", [("a", "AB", "A1"), ("b", "BC", "B1"), ("c", "CA", "C1")])
pair("units", [("IA", "A", "A1"), ("IB", "B", "B1"), ("IC", "C", "C2")], ["A", "kA", "mA"])
END
for name in fields ids backwards bays mixed lines; do
    echo "== $name"
    "$comtrade" measure --at 20 "$folder/$name" | sed '1,/positive/d' |
        awk '{ printf "%s %s %s %s: %.2f, %.2f, %.2f\n", $1, $2, $3, $4, $5, $7, $9 }'
done
"$comtrade" list "$folder/units.cfg" | sed -n 2p | grep -o 'I[ABC].*nominal [0-9]* A'
