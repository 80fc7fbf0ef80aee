# a report has what list, events, fault, check, plot and page say of each record: their cells, blocks, notes, pictures and pages; texts that
# would be tags are escaped; a record that cannot be read is named. Skipped without python3, which reads the HTML
command -v python3 > /dev/null || { echo "python3 isn't here" >&2; exit 77; }
exec 2>&1
folder=$(mktemp -d)
trap 'rm -r "$folder"' EXIT
python3 ../examples/storm/make.py "$folder/all"
mkdir "$folder/storm"
cp "$folder"/all/storm1[12].* files/gaps.cfg files/gaps.dat "$folder/storm"
sed 's/^2,I,/2,<b>\&"I,/' files/gaps.cfg > "$folder/storm/gaps.cfg"
printf 'x' > "$folder/storm/broken.cfg"
printf 'x' > "$folder/storm/broken.dat"
check=$PWD/comtrade/report/check.py
cd "$folder"
"$comtrade" report storm -o storm.html
echo "status $?"
"$comtrade" report storm -o storm.html
echo "status $?"
python3 "$check" "$comtrade" storm.html storm
"$comtrade" report --recursive all --output all.html
echo "status $?"
python3 "$check" "$comtrade" all.html all
"$comtrade" report --encoding latin1 all/storm12 | grep -c '<h3>all/storm12</h3>'
mkdir none
"$comtrade" report none | sed -n 's/.*<h1>\(.*\)<.h1>.*/\1/p'
