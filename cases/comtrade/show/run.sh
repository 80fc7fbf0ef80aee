# the example, a file with gaps, two rates, stamps that are missing and a text that isn't printable, a lenient one, and standard input
"$comtrade" show ../examples/earth-fault/rec1.cfg ../examples/earth-fault/rec1.dat
"$comtrade" show files/gaps.cfg files/gaps.dat
"$comtrade" show files/lenient.cfg - < files/binary.dat
# two channels of one id; 22 gaps of one row each, of which 20 are listed
folder=$(mktemp -d)
trap 'rm -r "$folder"' EXIT
sed 's/^2,I,/2,U,/' files/gaps.cfg > "$folder/cfg"
"$comtrade" show "$folder/cfg" files/gaps.dat | grep '^missing'
sed 's/^1000,5/1000,44/' files/first.cfg > "$folder/cfg"
for n in $(seq 44); do echo "$n,,$((n % 2 ? n : 99999))"; done > "$folder/dat"
"$comtrade" show "$folder/cfg" "$folder/dat" | sed -n '/^missing/,$p'
