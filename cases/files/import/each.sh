# Imports each pair of the folder $of, in the order of their names. Prints for each its name, what the program prints, the lines of the
# configuration file that come out changed, and the data (BINARY data as whole numbers of 16 bits).
LC_ALL=C
folder=$(mktemp -d)
trap 'rm -r "$folder"' EXIT
for cfg in "$of"/*.cfg; do
    name=${cfg##*/} name=${name%.cfg}
    echo "== $name"
    "$comtrade" import "$cfg" "${cfg%.cfg}.dat" "$folder/$name" 2>&1 || echo "status $?"
    [ -f "$folder/$name.cfg" ] || continue
    diff -a <(tr -d '\r' < "$cfg") <(tr -d '\r' < "$folder/$name.cfg") | sed -n 's/^> //p'
    if grep -q '^ASCII' "$folder/$name.cfg"; then
        tr -d '\r\032' < "$folder/$name.dat"
    else
        od -An -v -td2 -w10 "$folder/$name.dat"
    fi
done
