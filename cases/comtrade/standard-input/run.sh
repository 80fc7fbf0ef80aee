# one file of a pair from standard input says the same as from its name; faults name standard input; nothing there, and a closed one
folder=$(mktemp -d)
trap 'rm -r "$folder"' EXIT
for verb in show csv plot; do
    for pair in "first first" "gaps gaps" "lenient binary"; do
        set -- $pair
        "$comtrade" $verb files/$1.cfg files/$2.dat > "$folder/named"
        "$comtrade" $verb - files/$2.dat < files/$1.cfg | cmp - "$folder/named" && echo "$verb $1.cfg same"
        "$comtrade" $verb files/$1.cfg - < files/$2.dat | cmp - "$folder/named" && echo "$verb $2.dat same"
        cat files/$2.dat | "$comtrade" $verb files/$1.cfg - | cmp - "$folder/named" && echo "$verb $2.dat piped same"
    done
done
"$comtrade" convert --kind binary - files/first.dat "$folder/one" < files/first.cfg
"$comtrade" convert --kind binary files/first.cfg - "$folder/other" < files/first.dat
cmp "$folder/one.cfg" "$folder/other.cfg" && cmp "$folder/one.dat" "$folder/other.dat" && cmp "$folder/one.dat" files/binary.dat && echo converted
exec 2>&1
checked() {
    "$comtrade" check "$@"
    echo "status $?"
}
checked - files/first.dat < files/first.cfg
checked files/first.cfg - < files/first.dat
checked - files/first.dat < files/counts.cfg
checked files/first.cfg - < files/cut.dat
checked files/first.cfg - < /dev/null
checked - files/first.dat <&-
checked files/no-file - < files/first.dat
# work of some seconds says nothing where standard error is no terminal; a reader that goes away is no fault
seq 200000 | sed 's/.*/&,,11/' > "$folder/long.dat"
sed 's/^1000,5/1000,200000/' files/first.cfg > "$folder/long.cfg"
"$comtrade" csv "$folder/long.cfg" - < "$folder/long.dat" | wc -l
{ "$comtrade" csv "$folder/long.cfg" "$folder/long.dat"; echo "status $?" > "$folder/status"; } | head -n 1
cat "$folder/status"
