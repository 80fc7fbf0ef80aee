# rms values and phasors of a page are those of `measure`, also where a cycle has no whole number of rows, with skews, and where a dc part
# decays
command -v python3 > /dev/null && command -v node > /dev/null || { echo "python3 and node aren't here" >&2; exit 77; }
folder=$(mktemp -d)
trap 'rm -r "$folder"' EXIT
python3 comtrade/measure-page/records.py "$folder"
for record in 960-50 800-60 4000-60 4800-50 rates missing decay-4800-50 decay-4000-60 decay-3000-50; do
    python3 comtrade/measure-page/compare.py "$comtrade" "$folder/$record" 97 100 160 199 2>&1
done
