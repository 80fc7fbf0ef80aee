# records and events of some time, station, current and kind; folders within folders; events as comma-separated values; each wrong value
command -v python3 > /dev/null || { echo "python3 isn't here" >&2; exit 77; }
exec 2>&1
folder=$(mktemp -d)
trap 'rm -r "$folder"' EXIT
python3 comtrade/filters/records.py "$folder"
cd "$folder" || exit 1
said() {
    echo "> $*"
    "$comtrade" "$@" | sed 's/^  //; s/  */ /g; s/\r$/|/'
    echo "status ${PIPESTATUS[0]}"
}
listed() { # the records that a list has, and its last line
    echo "> list $*"
    "$comtrade" list "$@" | sed -n 's/.* \([a-z/.]*\.cfg\)$/\1/p; $p' | tr '\n' ' '
    echo "status ${PIPESTATUS[0]}"
}
listed .
listed -r .
listed --recursive year
listed -r --from 2024-07-01T10:30:10 .
listed -r --from 2024-07-01T10:30:10.02 --to 2024-07-01T10:30:20.019999 .
listed -r --station hill .
listed -r --station 'Hill*' .
listed -r --min-current 707.1 .
listed -r --min-current 2000 --station 'H*' .
listed -r --min-current 99999 .
listed --station nowhere --json . | tr -d '\n'
echo
said events a b
said events --type trigger -r .
said events --type 'change, gap' a bus.csv
said events --from '2024-07-01 10:30:00.03' --to 2024-07-01T10:30:05 a b bus.csv
said events --station Hill a b bus.csv
said events --csv a bus.csv
said events --csv --type gap a
said list --from noon .
said list --to -20 .
said list --min-current much .
said list --min-current=-1 .
said events --type noise a
said events --csv --json a
said fault -r year
mkdir -p $(printf 'deep/%.0s' $(seq 24))
cp a.cfg a.dat "$(printf 'deep/%.0s' $(seq 20))"
listed -r deep
