# The committed man pages and completions are those that the programs' help gives. A page causes no
# warning and has no line over 80 columns. After a change of the help, run tools/manuals --write.
folder=$(mktemp -d)
trap 'rm -rf "$folder"' EXIT
skipped() { echo "skipped: $*" >&2; }
command -v python3 > "$folder/said" || { echo "python3 isn't here" >&2; exit 77; }

../tools/manuals "$folder" || exit 1
diff -r ../share/completions "$folder/share/completions" && echo "the completions are those of --help"
here=$(pandoc --version 2> /dev/null | sed -n '1s/^pandoc //p')
for page in dfr dfrd dfrbus comtrade; do
    committed=../docs/man/$page.1
    if [ "$(sed -n '1s/.*Pandoc //p' $committed)" = "$here" ]; then
        diff $committed "$folder/docs/man/$page.1"
    else
        skipped "$page.1 can't be made anew: another pandoc, or none"
    fi
    echo "$page.1: $(sed -n 's/^\.SH //p' $committed | paste -sd ' ')"
    if command -v mandoc > "$folder/said"; then
        mandoc -T lint $committed
        mandoc -T ascii -O width=78 $committed | sed 's/.\x08//g' > "$folder/$page.txt"
        awk 'length > 80' "$folder/$page.txt"
        grep -n '`\|](\|^|' "$folder/$page.txt"
    else
        skipped "$page.1 can't be checked: no mandoc"
    fi
done
# the version and its date
version=$(cat ../VERSION)
date=$(sed -n "s/^## \[$version\] - //p" ../CHANGELOG.md)
grep -c "^\.TH .*\"$date\" \".* $version\" " ../docs/man/*.1
exit 0
