# the JSON of show, list, events, check and detect, member by member, against a reader in another language: numbers are numbers, texts are
# whole; a record with missing samples and two rates, one with odd numbers, ids of over 64 letters and 25 changes; two records of one list
command -v python3 > /dev/null || { echo "python3 isn't here" >&2; exit 77; }
exec 2>&1
folder=$(mktemp -d)
trap 'rm -r "$folder"' EXIT
cp ../examples/earth-fault/rec1.cfg ../examples/earth-fault/rec1.dat "$folder"
sed 's/^0.5/1/; s/\r*$/\r/' files/gaps.cfg > "$folder/two.cfg"
printf '%s\r\n' 1,,5,99999,0,1 2,,-3,99999,0,1 3,,99999,12345,1,1 4,,99999,-99999,0,0 5,,0,1,0,0 6,,1,99999,1,0 7,,99999,99999,1,0 8,,7,99999,1,1 > "$folder/two.dat"
long=I$(printf 'b%.0s' $(seq 69))
printf '%s\r\n' 'Substation \"Nord\",Bay,1999' 5,4A,1D "1,$long,L1,\"c\",kA,0.000000125,-0.0625,0,-32767,32767,1000,5,P" \
    '2,I2,L2,,A,1.5e3,2,0,-5,99998,1,1,S' '3,U,,,V,123456.75,0,0,-99,99,1,0.1,P' '4,none,,,mA,1,0,0,-1,1,1,1,P' \
    "1,D$long,,,1" 16.7 1 6400,52 01/02/1999,23:59:59.999900 01/02/1999,23:59:59.999901 ASCII 2.5 > "$folder/odd.cfg"
for n in $(seq 52); do
    printf '%s\r\n' "$n,,$((n * 611 % 4093 - 2000)),$((n % 7)),$((n * 17 % 97)),99999,$((n / 2 % 2))"
done > "$folder/odd.dat"
python3 comtrade/json/check.py "$comtrade" "$folder/rec1" "$folder/two" "$folder/odd"
cd "$folder" || exit 1
"$comtrade" events --json rec1 odd | python3 -c '
import json, sys
events = json.load(sys.stdin)["events"]
print([list(it) for it in events if it["record"] == "odd"][0], {it["record"] for it in events} == {"rec1", "odd"})'
"$comtrade" check --json rec1
"$comtrade" check --json two
"$comtrade" check --json rec1.cfg two.dat
printf 'detect HIGH rms over 1000 of IA,IB\n' > lines
"$comtrade" detect lines rec1
"$comtrade" detect --json lines rec1
