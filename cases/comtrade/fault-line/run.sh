# where faults are on a line: simulated ones at known places, without an arc and with one; a record that does not tell it; files that tell no
# line. Skipped without python3, which makes the records
command -v python3 > /dev/null || { echo "python3 isn't here" >&2; exit 77; }
exec 2>&1
folder=$(mktemp -d)
trap 'rm -r "$folder"' EXIT
python3 ../bench/fault_lines make "$folder/metal" --seed 3 --count 40
python3 ../bench/fault_lines make "$folder/arc" --seed 4 --count 20 --arc 5
python3 ../examples/storm/make.py "$folder/storm"
bench=$PWD/../bench
cd "$folder"
python3 "$bench/fault_lines" judge "$comtrade" metal
python3 "$bench/fault_lines" judge "$comtrade" arc
"$comtrade" fault --line metal/p002.toml metal/p002 storm/storm11
"$comtrade" fault --long --line metal/p002.toml metal/p002
"$comtrade" fault --long --line metal/p005.toml metal/p005 | grep -A 2 '^place'
"$comtrade" fault --json --line metal/p005.toml metal/p005 | grep -o '"place":{[^}]*}' | tr , '\n' | cut -c 1-20
# of the secondary side, without a ratio and with the ratios of the line's file
sed 's/,[0-9]*,[0-9]*,P\r$/,1,1,S\r/' storm/storm12.cfg > second.cfg
cp storm/storm12.dat second.dat
line='length = 12\nr1 = 1.2\nx1 = 4.2\nr0 = 3.6\nx0 = 12.6\n'
printf "$line" > own.toml
printf "${line}voltage_ratio = 1\ncurrent_ratio = 1\n" > given.toml
for line in own given; do
    "$comtrade" fault --long --line $line.toml second | grep -A 2 '^place'
done
told() {
    "$comtrade" fault --line "$1" metal/p002
    echo "status $?"
}
said() {
    printf "$1" > bad.toml
    told bad.toml
}
told nowhere.toml
told metal
said 'length = 10\nr1 = 1\nx1 = 4\nr0 = 3\n'
said 'length = "10 km"\nr1 = 1\nx1 = 4\nr0 = 3\nx0 = 12\n'
said 'length = 10\nr1 = -1\nx1 = 4\nr0 = 3\nx0 = 12\n'
said 'length = 0\nr1 = 1\nx1 = 4\nr0 = 3\nx0 = 12\n'
said 'length = 10\nr1 = 1\nx1 = 4e9\nr0 = 3\nx0 = 12\n'
said 'length = 10\nr1 = nan\nx1 = 4\nr0 = 3\nx0 = 12\n'
said 'length = 10\nr1 = 1\nx1 = 4\nr0 = 3\nx0 = 12\nvoltage_ratio = 0\n'
said 'length = 10\nr1 = 1\nx1 = 4\nr0 = 3\nx0 = 12\nz2 = 1\n'
said 'length = 10\nr1 1\n'
said 'length = 10 # \xff\n'
head -c 70000 /dev/zero | tr '\0' '\n' > bad.toml
told bad.toml
