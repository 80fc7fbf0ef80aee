# fifty simulated faults, and minutes without one: with a seed on which nothing was tuned. Skipped without python3, which makes them
command -v python3 > /dev/null || { echo "python3 isn't here" >&2; exit 77; }
folder=$(mktemp -d)
trap 'rm -r "$folder"' EXIT
python3 ../bench/faults make "$folder" --seed 4211 --faults 50 --quiet 20
python3 ../bench/faults judge "$comtrade" "$folder" --least
