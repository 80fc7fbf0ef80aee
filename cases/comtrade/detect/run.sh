# when detectors fire on disturbances of a line, by their definitions in another language; nothing fires in 8 seconds of noise
command -v python3 > /dev/null || { echo "python3 isn't here" >&2; exit 77; }
work=$(mktemp -d)
trap 'rm -rf "$work"' EXIT
for name in $(python3 files/disturbances.py make "$work" 8); do
    "$comtrade" detect "$work/lines" "$work/$name" > "$work/$name.told" || echo "status $?"
done
python3 files/disturbances.py judge "$work"
# as JSON the same
for name in sag missing; do
    "$comtrade" detect --json "$work/lines" "$work/$name" | python3 -c '
import json, sys
for d in json.load(sys.stdin)["detectors"]:
    for f in d["fires"]:
        print(d["name"], f["instant"], "row", f["row"], "scan", f["scan"], "for", f["scans"])
    if not d["fires"]:
        print(d["name"], "never")' | cmp - "$work/$name.told" && echo same
done
# lines that are refused, a file of none, a record of two rates or of none, a missing file
try() {
    printf '%s\n' "$1" > "$work/tried"
    "$comtrade" detect "$work/tried" "${2:-$work/load}"
    echo "status $?"
}
{
    try 'detect A rms over 5 of IX'
    try $'# one\ndetect A frequency under 49 of UA'
    try 'freq 50'
    sed 's/^1\r$/2\r\n1200,1200\r/' "$work/load.cfg" > "$work/two.cfg"
    cp "$work/load.dat" "$work/two.dat"
    try 'detect A rms over 5 of IA' "$work/two"
    sed 's/^1200,2400/1200.5,2400/' "$work/load.cfg" > "$work/part.cfg"
    cp "$work/load.dat" "$work/part.dat"
    try 'detect A rms over 5 of IA' "$work/part"
    try 'detect A rms over 5 of IA' "$work/none"
    "$comtrade" detect "$work/none" "$work/load"
    echo "status $?"
} 2>&1 | sed "s|$work|WORK|g"
