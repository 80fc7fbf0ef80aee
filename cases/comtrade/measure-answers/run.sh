# phasors, sequences, harmonics and frequencies are those that were written down: off the frequency of the file, with fractions of a row in a
# cycle, at 16.7 Hz; rms values are within 3 units of the last place; channels of phases by name; each refusal
command -v python3 > /dev/null || { echo "python3 isn't here" >&2; exit 77; }
exec 2>&1
folder=$(mktemp -d)
trap 'rm -r "$folder"' EXIT
python3 comtrade/measure-answers/records.py "$folder"
python3 comtrade/measure-answers/check.py "$comtrade" "$folder"
cd "$folder" || exit 1
said() {
    echo "> measure $*"
    "$comtrade" measure "$@" | grep 'frequency\|^note\|sequence'
    echo "status ${PIPESTATUS[0]}"
}
said --at 'row 700' off47.5
said --at 'row 700' --frequency measured off47.5
said --at 'row 700' --frequency 47.5 off47.5
said --at 'row 100' off50
said --at 'row 500' jump
said --at 'row 500' --frequency measured jump
said --at 'row 100' --frequency measured off50
said --at 'row 700' --phases UA,UB off50
said --at 'row 700' --phases UA,UB,IC off50
said --at 'row 700' --phases UA,UB,UA off50
said --at 'row 700' --frequency fast off50
said --at 'row 700' --frequency 0 off50
said --frequency measured off50
said --frequency 50 --channels 'U*' off50
