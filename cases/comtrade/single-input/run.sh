# a single file on standard input: the commands print what they print of it by its name; what is no single file, and - twice
exec 2>&1
folder=$(mktemp -d)
trap 'rm -r "$folder"' EXIT
{
    printf -- '--- file type: CFG ---\r\n'
    sed '1s/1999/2013/;$s/$/\n0,0\r\nB,3\r/' files/first.cfg
    printf -- '--- file type: DAT ASCII ---\r\n'
    cat files/first.dat
} > "$folder/in.cff"
for verb in show csv plot page measure; do
    "$comtrade" $verb "$folder/in.cff" > "$folder/want" 2> "$folder/told"
    "$comtrade" $verb - < "$folder/in.cff" > "$folder/got" 2> "$folder/said"
    echo "$verb: status $?"
    cmp "$folder/got" "$folder/want" && cmp "$folder/said" "$folder/told"
done
cat "$folder/in.cff" | "$comtrade" csv -
"$comtrade" check - < "$folder/in.cff"
echo "status $?"
"$comtrade" check --json - < "$folder/in.cff"
echo "status $?"
"$comtrade" csv --strict - < "$folder/in.cff"
echo "status $?"
"$comtrade" csv - < files/first.dat
echo "status $?"
"$comtrade" csv - < /dev/null
echo "status $?"
"$comtrade" csv - -
echo "status $?"
"$comtrade" convert --kind binary - "$folder/new" < "$folder/in.cff" && ls "$folder"
