# what only looks like a fault: one that ends whose inception is not seen, poles that open with voltages of their line, missing samples; a fault
# behind the measured end, one that may be older than the first row examined, a trip contact whose normal state is 1. Skipped without python3
command -v python3 > /dev/null || { echo "python3 isn't here" >&2; exit 77; }
folder=$(mktemp -d)
trap 'rm -r "$folder"' EXIT
cd "$folder"
python3 - << 'END'
import cmath, math

LOAD = [cmath.rect(x, math.radians(d)) for x, d in ((100, -20), (100, -140), (100, 100))]
HEALTHY = [cmath.rect(60, math.radians(d)) for d in (0, -120, 120)]
FAULT, SAG = [10j * LOAD[0] * -1, *LOAD[1:]], [0.3 * HEALTHY[0], *HEALTHY[1:]]
DEAD = [0j] * 3

def write(name, stages, missing=(), normal=0, trip=1440):
    """Stages: row, three currents, three voltages. 4800 rows a second."""
    lines, first = [], lambda now: [s for s in stages if s[0] <= now][-1]
    for n in range(1440):
        _, amps, volts = first(n)
        turn = cmath.rect(1, 2 * math.pi * n / 96)
        cells = [round((math.sqrt(2) * x * turn).real * 10) for x in (*volts, *amps)]
        cells = ["99999" if k in missing else str(x) for k, x in enumerate(cells)]
        lines.append(",".join([str(n + 1), str(round(n / 0.0048)), *cells, str(int((n >= trip) != normal))]) + "\r\n")
    names = [(x, x[1], "kV" if x[0] == "U" else "A") for x in ("UA", "UB", "UC", "IA", "IB", "IC")]
    head = ["Hill,Bay,1999", "7,6A,1D"]
    head += [f"{n},{x},{p},,{u},0.1,0,0,-32767,32767,600,1,P" for n, (x, p, u) in enumerate(names, 1)]
    head += [f"1,Trip,,,{normal}", "50", "1", "4800,1440"]
    head += ["01/07/2024,10:30:00.000000", "01/07/2024,10:30:00.100000", "ASCII", "1"]
    open(name + ".cfg", "w", newline="").write("".join(line + "\r\n" for line in head))
    open(name + ".dat", "w", newline="").write("".join(lines))

write("a_end", [(0, FAULT, SAG), (480, LOAD, HEALTHY)])
write("b_end_all", [(0, FAULT, SAG), (480, DEAD, HEALTHY)])
write("c_pole", [(0, LOAD, HEALTHY), (480, [0j, *LOAD[1:]], [3, *HEALTHY[1:]])])
write("d_poles", [(0, LOAD, HEALTHY), (480, DEAD, DEAD)])
write("e_no_samples", [(0, LOAD, HEALTHY), (480, FAULT, SAG)], missing=(4,))
write("f_behind", [(0, LOAD, HEALTHY), (480, [-0.9 * x for x in LOAD], [0.4 * x for x in HEALTHY])])
write("g_older", [(0, LOAD, HEALTHY), (150, FAULT, SAG), (480, LOAD, HEALTHY)])
write("h_trip", [(0, LOAD, HEALTHY), (480, FAULT, SAG), (960, DEAD, HEALTHY)], normal=1, trip=580)
END
"$comtrade" fault . 2>&1
