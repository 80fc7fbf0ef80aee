# names in Latin-1 and in UTF-8: shown, listed, chosen by, drawn and in pages; characters that hide or turn others are never let through
folder=$(mktemp -d)
trap 'rm -r "$folder"' EXIT
pair() { # the file's name, a station, the names of two channels and of a contact, as printf has them
    printf "$2"',DFR,1999\r\n3,2A,1D\r\n1,'"$3"',A,,A,1,0,0,-10,10,1,1,P\r\n2,'"$4"',B,,A,1,0,0,-10,10,1,1,P\r\n1,'"$5"',,,0\r\n' > "$folder/$1.cfg"
    printf '50\r\n1\r\n1000,3\r\n01/01/2024,00:00:00.000000\r\n01/01/2024,00:00:00.001000\r\nASCII\r\n1\r\n' >> "$folder/$1.cfg"
    printf '1,0,1,4,0\r\n2,1000,2,5,1\r\n3,2000,3,6,1\r\n' > "$folder/$1.dat"
}
said() {
    echo "== ${*//$folder\//}"
    "$comtrade" "$@" 2>&1 | sed "s|$folder/||g"
    echo "status ${PIPESTATUS[0]}"
}
pair latin 'M\xfchle' 'Str\xf6m' 'b' 'Aus\xdf'
pair utf8 'M\xc3\xbchle' 'a<\xc3\xb6>&\xe2\x80\xae' 'abcdefghijklmnopqrstuvwxyz01234\xc3\xbc5' '\xce\xa9'
said csv "$folder/latin"
said csv --encoding latin1 "$folder/latin"
said csv --encoding latin1 --channels 'Strö*' "$folder/latin"
said csv --encoding utf-8 --channels 'Strö*' "$folder/latin"
said csv --encoding ebcdic "$folder/latin"
said list --encoding latin1 "$folder/latin.cfg"
said list --encoding ebcdic "$folder/latin.cfg"
said list "$folder/utf8.cfg"
said convert --kind binary --encoding latin1 "$folder/latin" "$folder/new"
# every letter of each encoding, as Python's own tables have it
for page in latin1 windows-1251 windows-1252 cp437 cp850 cp866 gbk shift_jis; do
    python3 files/code_pages.py write "$folder/$page" "$page"
    "$comtrade" csv --encoding "$page" "$folder/$page" | head -n 1 | python3 files/code_pages.py compare "$page"
done
# GBK and Shift JIS in all views; a byte that begins no letter; import, of a pair and of a single file
pair gbk '\xd6\xe9\xba\xa3220kV' 'I\xa6\xb5\xb5\xe7\xc1\xf7' 'a\xff\xd6' '\x80'
pair sjis '\x93\xfa\x97\xa7' '\x93d\x97\xac' '\xc3\xde' '\x81\xfd'
for name in gbk:gbk sjis:SHIFT-JIS; do
    said show --encoding "${name#*:}" "$folder/${name%:*}" | grep 'station\|^  [12] '
    said csv --encoding "${name#*:}" "$folder/${name%:*}" | sed -n 2p
    said measure --encoding "${name#*:}" "$folder/${name%:*}" > /dev/null
    for view in list events plot page; do
        "$comtrade" $view --encoding "${name#*:}" "$folder/${name%:*}.cfg" 2> /dev/null | grep -o '珠海220kV\|日立' | head -n 1
    done
done
said import --encoding gbk "$folder/gbk" "$folder/gbk-new"
head -n 4 "$folder/gbk-new.cfg"
{
    printf -- '--- file type: CFG ---\r\n'
    cat "$folder/sjis.cfg"
    printf -- '--- file type: DAT ASCII ---\r\n'
    cat "$folder/sjis.dat"
} > "$folder/single.cff"
said import --encoding sjis "$folder/single.cff" "$folder/sjis-new"
said import --encoding latin1 "$folder/latin" "$folder/latin-new"
said import --encoding ebcdic "$folder/latin" "$folder/none"
said import --encoding latin1 "$folder/utf8" "$folder/utf8-new"
{ printf '\xef\xbb\xbf'; cat "$folder/utf8.cfg"; } > "$folder/marked.cfg"
cp "$folder/utf8.dat" "$folder/marked.dat"
said import --encoding latin1 "$folder/marked" "$folder/marked-new"
# the mark isn't shown, and says the encoding
for view in show csv events; do
    "$comtrade" $view "$folder/utf8.cfg" > "$folder/want" 2> /dev/null
    "$comtrade" $view --encoding latin1 "$folder/marked.cfg" 2> /dev/null | cmp - "$folder/want" || echo "$view differs"
done
# a picture: names, and lines of a long one, cut between characters
"$comtrade" plot "$folder/utf8" | grep -o '>[^<]*\(ü\|ö\|Ω\)[^<]*<'
"$comtrade" plot --encoding latin1 "$folder/latin" | grep -o '>[^<]*\(ö\|ß\)[^<]*<'
# a page
"$comtrade" page "$folder/utf8" | grep -o '"[^"]*\(ü\|ö\|Ω\)[^"]*"'
"$comtrade" page "$folder/latin" | grep -o '"[^"]*\\u005cx\(f6\|df\|fc\)[^"]*"'
"$comtrade" page "$folder/utf8" | grep -c "$(printf '\xe2\x80\xae')"
true
