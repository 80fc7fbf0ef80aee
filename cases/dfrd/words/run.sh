# the version and the help; usage errors
. files/dfrd.bash
"$dfrd" --version | cut -d' ' -f1 # (the case `versions` compares the rest)
"$dfrd" --help > "$work/help"
echo $?
grep -o -- '^ *\(-h, \|-V, \)\?--[a-z-]*' "$work/help" | grep -o -- '--[a-z-]*' | paste -sd ' '
for words in '' 'one' '--kind short one two' '--keep' '--health' 'one two --journal=yes' 'one two three' '--no one two'; do
    "$dfrd" $words < /dev/null > /dev/null 2> "$work/err"
    echo "$? $(grep -c '^error' "$work/err")"
done
"$dfrd" $'\xff' two < /dev/null 2>&1
echo $?
