# notes that name a text of a file which is not UTF-8, or has a control character: none is lost, and the text is shown in hexadecimal
folder=$(mktemp -d)
trap 'rm -r "$folder"' EXIT
pair() { # the file's name, and those of its channel and its unit, as printf has them: the greatest sample has ten digits, so that the others are rounded
    printf 'Base,DFR,1999\r\n1,1A,0D\r\n1,'"$2"',A,,'"$3"',1,0,0,-99999,99998,1,1,P\r\n50\r\n1\r\n1000,3\r\n' > "$folder/$1.cfg"
    printf '01/01/2024,00:00:00.000000\r\n01/01/2024,00:00:00.001000\r\nASCII\r\n1\r\n' >> "$folder/$1.cfg"
    printf '1,0,1\r\n2,1000,2\r\n3,2000,4294967296\r\n' > "$folder/$1.dat"
}
told() { # what standard error says of channel 1: the keys of the notes, and the names around the number
    "$comtrade" "$@" 2>&1 > /dev/null | sed -n 's/^\([^ ]*: \)\?\([a-z]*-[a-z-]*\): .*(channel 1\(: .* by at most \|\)[0-9.]*\([^)]*\))$/  \2\3\4/p'
    echo "  status ${PIPESTATUS[0]}"
}
pair ascii IA A
pair gbk '\xc4\xb8\xcf\xdf' A
pair unit IA '\xa6\xb8'
pair control 'I\x1b[31m' A
for name in ascii gbk unit control; do
    for verb in csv show events list; do
        echo "$verb $name"
        told $verb "$folder/$name.cfg"
    done
done
