# what is measured of signals that are known on paper, at a rate that is a multiple of the frequency and at one that isn't; each refusal; random
# signals against least squares in another language. Skipped where python3 isn't there, which makes the signals
exec 2>&1
command -v python3 > /dev/null || { echo "python3 isn't here" >&2; exit 77; }
folder=$(mktemp -d)
trap 'rm -r "$folder"' EXIT
python3 files/signals.py "$folder"
said() {
    echo "> measure $*"
    "$comtrade" measure "${@:1:$#-1}" "$folder/${!#}"
    echo "status $?"
}
said whole
said --at -1 whole
said --at 100 whole
said --from 0 --to 100 --channels 'I*,battery,spare' --reference IB whole
said between
said --at 'row 300' --channels 'UA,I*' between
said --at 100 --channels 'IA,IB,IC' gap
said gap
said rates
said --at 'row 360' --channels IC rates
said --from 'row 1' --to 'row 100' --channels IC rates
said stamps
said short
said direct
said slow
said coarse
said --at 'row 60' --channels UA coarse
said --at 0 --to 10 whole
said --at 0 --reference IX whole
said --at 0 --reference battery whole
said --at 2 --channels spare whole
# numbers to six digits: the last ones of a least square are those of its order of sums
rounded() {
    python3 -c '
import json, sys
def short(x):
    if isinstance(x, float):
        return float(f"{x:.6g}") if abs(x) > 1e-9 else 0.0
    if isinstance(x, dict):
        return {k: short(v) for k, v in x.items()}
    return [short(v) for v in x] if isinstance(x, list) else x
for line in sys.stdin:
    print(json.dumps(short(json.loads(line))) if line.startswith("{") else line.rstrip())'
}
said --at 0 --channels battery --json whole | rounded
said --channels 'I*' --json gap | rounded
random=("$folder"/random?.cfg)
python3 files/phasors.py "$comtrade" "${random[@]%.cfg}"
