# Each library crate has a README. Its example stands, line by line, in the file named under it, which the gate runs; the names in its
# table stand in its source; the files that it names are there. So do the examples of the page on a recorder of one's own.
cd ..
# crates without a surface for others: programs and tests
without=' dfr dfrd dfrbus comtrade examples library_tests benchmarks bus_fields bay_scans capture_lines folder_crashes '

# names of the table's first column that no source has
unknown() {
    sed -n '/^| `/s/^| \([^|]*\).*/\1/p' "$1" | grep -o '`[^`]*`' | grep -o '[A-Za-z_0-9]*' | while read -r name; do
        grep -rqw --include='*.rt' "$name" "crates/$2/src" || echo "$2: no $name in its source"
    done
}

# files and folders named in it, or linked, that aren't there
gone() {
    {
        grep -oE '`(bench|cases|crates|docs|examples)/[^ `]*`' "$1" | tr -d '`'
        grep -o '](../../[^)]*)' "$1" | sed 's|](../../||; s|)$||'
    } | while read -r file; do compgen -G "$file" > /dev/null || echo "$2: no $file"; done
}

sed 's/#.*//; s/:.*//' crates.txt | awk 'NF { print $1 }' | LC_ALL=C sort | while read -r name; do
    [[ $without == *" $name "* ]] && continue
    page=crates/$name/README.md
    [ -f "$page" ] || { echo "$name: no README"; continue; }
    lines=$(wc -l < "$page")
    [ "$lines" -le 45 ] || echo "$name: $lines lines; wanted are at most 45"
    grep -qF "    (cd crates/$name && rt check)" "$page" || echo "$name: no line that checks it"
    unknown "$page" "$name"
    gone "$page" "$name"
    awk -v name="$name" -f cases/documents/readme-examples/blocks.awk "$page"
done
sed -n "/^### A recorder of one's own/,/^## /p" docs/EMBEDDING.md | awk -v name=EMBEDDING -f cases/documents/readme-examples/blocks.awk
