# only samples that a note names may differ from the data file: a second decoding is compared with what is written
. files/import/pair.sh
samples() { # name; the four samples of channel 1; the notes on samples and what they name, then both channels as they are written
    mkdir "$folder/$1"
    cp $base.cfg "$folder/$1/in.cfg"
    sed -b -e "s/-903,/$2,/;s/-465,/$3,/;s/325,/$4,/;s/871,/$5,/" $base.dat > "$folder/$1/in.dat"
    "$comtrade" import "$folder/$1/in.cfg" "$folder/$1/in.dat" "$folder/$1/out" > "$folder/$1/told" 2>&1
    echo "$1: status $?"
    grep '^[mv]' "$folder/$1/told" | sed 's/: .*(/: (/'
    head -n 4 "$folder/$1/out.dat" | tr -d '\r' | cut -d, -f3,4 | tr '\n' ' '
    echo
}
samples kept 99998 -99999 0 -1
samples wide 100000 200000 300000 -100000
samples points 1.5 2 -3 0.4e1
samples marks -903 -32768 999999 871
