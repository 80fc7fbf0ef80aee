# detectors over an hour of a line that wanders and is noisy, in which none fires, and over five disturbances after it, in which each fires
# in time
command -v python3 > /dev/null || { echo "python3 isn't here" >&2; exit 77; }
work=$(mktemp -d)
trap 'rm -rf "$work"' EXIT
python3 files/quiet_hour.py make "$work"
"$comtrade" detect "$work/lines" "$work/hour" > "$work/told" || echo "status $?"
python3 files/quiet_hour.py judge "$work"
