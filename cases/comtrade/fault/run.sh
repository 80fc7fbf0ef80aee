# faults of known records: type, times by contacts, the greatest current; records without a fault, and why; several names, a folder, a single
# file, one that cannot be read, one without currents; simulated faults with known answers. Skipped without python3, which makes the records
command -v python3 > /dev/null || { echo "python3 isn't here" >&2; exit 77; }
exec 2>&1
folder=$(mktemp -d)
trap 'rm -r "$folder"' EXIT
python3 ../examples/storm/make.py "$folder/storm"
python3 ../bench/faults make "$folder/known" --seed 7 --faults 12 --quiet 5
bench=$PWD/../bench
files=$PWD/files
examples=$PWD/../examples
cd "$folder"
"$comtrade" fault storm
"$comtrade" fault --long storm/storm12
echo "status $?"
"$comtrade" fault storm/storm11 nowhere
echo "status $?"
mkdir mixed
cp storm/storm12.* mixed
cp "$files/first.cfg" "$files/first.dat" mixed
printf 'x' > mixed/broken.cfg
printf 'x' > mixed/broken.dat
"$comtrade" fault mixed
echo "status $?"
mkdir none
"$comtrade" fault none
echo "status $?"
python3 "$bench/faults" judge "$comtrade" known
