# a text that is not UTF-8 is shown byte by byte, also where a part of it looks like UTF-8; NULs at the end of texts are not shown, and
# do not hide that a channel is a current
exec 2>&1
folder=$(mktemp -d)
trap 'rm -r "$folder"' EXIT
cp comtrade/text-bytes/*.cfg comtrade/text-bytes/*.dat "$folder"
sed 's/^1,IA/1,\xe9\xba\xa3\xb1/' "$folder/gbk.cfg" > "$folder/name.cfg"
cp "$folder/gbk.dat" "$folder/name.dat"
cd "$folder" || exit 1
for name in gbk name padded; do
    for verb in show csv list events measure 'show --json'; do
        echo "== $verb $name"
        "$comtrade" $verb $name
        echo "status $?"
    done
done
"$comtrade" plot name | grep -o '>[^<]*xb1[^<]*<'
"$comtrade" page name | grep -o '"[^"]*xb1[^"]*"'
"$comtrade" csv --channels '\xe9*' name
"$comtrade" csv --encoding latin1 name
