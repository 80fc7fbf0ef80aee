# the rms values in a picture's legends are those of `measure` before and after the inception, or the trigger, at rates whose cycles have no
# whole number of rows. Skipped where python3 isn't there, which makes the records
command -v python3 > /dev/null || { echo "python3 isn't here" >&2; exit 77; }
folder=$(mktemp -d)
trap 'rm -r "$folder"' EXIT
python3 comtrade/measure-plot/records.py "$folder"
said() {
    echo "> plot $1"
    python3 comtrade/measure-plot/legends.py "$comtrade" "$folder/$1" "$2" "$3" 2>&1
}
said late 78 115
said sixty 68 93
said missing 78 134
said steady 101 139
said brief 29 48
