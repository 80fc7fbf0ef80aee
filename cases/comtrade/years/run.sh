# both ends of the calendar: what each view prints of a trigger and of rows in the years 1, 4 and 9999; a row after them has words;
# no view has an earlier or later trigger, since the readers refuse the year 0 and 24:00 on the last day
folder=$(mktemp -d)
trap 'rm -r "$folder"' EXIT
made() { # made INSTANT: a pair of two rows from then on, 1 ms apart, the first of which is the trigger
    printf 's,d,1999\r\n2,1A,1D\r\n1,U,,,V,1,0,0,-9,9,1,1,P\r\n1,C,,,0\r\n50\r\n1\r\n1000,2\r\n%s\r\n%s\r\nASCII\r\n1\r\n' "$1" "$1" > "$folder/r.cfg"
    printf '1,0,1,0\r\n2,1000,2,1\r\n' > "$folder/r.dat"
}
shown() { # shown INSTANT
    made "$1"
    "$comtrade" plot "$folder/r" | grep -o '[Tt]rigger [0-9-]* [0-9:]*[.][0-9]*'
    "$comtrade" page "$folder/r" | grep -o '<p>trigger [^,<]*'
    "$comtrade" show "$folder/r" | grep '^first row\|^trigger'
    "$comtrade" csv "$folder/r" | sed 1d | cut -d , -f 1,2
    "$comtrade" events --json "$folder/r" | grep -o '"instant":"[^"]*"'
}
shown 01/01/0001,00:00:00.000000
shown 29/02/0004,01:02:03.000004
shown 31/12/9999,23:59:59.999999
for instant in 01/01/0000,00:00:00.000000 31/12/9999,24:00:00.000000; do
    made "$instant"
    for view in plot page show csv; do
        "$comtrade" "$view" "$folder/r" > "$folder/out" 2> "$folder/err"
        echo "$view status $? $(wc -c < "$folder/out") bytes"
    done
done
