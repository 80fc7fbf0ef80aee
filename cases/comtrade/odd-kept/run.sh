# what is odd in a pair that reads exactly, and stays as it is: each command tells it as import does
. files/import/pair.sh
told() { # name: the keys that import tells; then the commands that tell other notes
    local of="$folder/$1" verb
    "$comtrade" import "$of/in" "$of/new" > "$of/wanted" 2>&1
    echo "$1:$(sed -n 's/^\([a-z0-9-]*\): .*(.*)$/ \1/p' "$of/wanted" | tr -d '\n')"
    for verb in show csv plot page events list; do
        "$comtrade" $verb "$of/in.cfg" 2>&1 > "$of/got" | sed "s|^$of/in.cfg: ||" | grep -v '^note: ' > "$of/said"
        cmp "$of/said" "$of/wanted" || echo "$1: $verb differs"
    done
}
made() { # name; the edits of the base
    mkdir "$folder/$1"
    sed -b -e "$2" $base.cfg > "$folder/$1/in.cfg"
    sed -b -e "$3" $base.dat > "$folder/$1/in.dat"
    told "$1"
}
made no-stamps '' 's/,[0-9]*,/,,/'
made one-row-without-a-stamp '9s/4/1/;11s/855699/853699/' '2,4d;1s/,0,/,,/'
made no-times '8s/1/0/;9s/1000/0/' 's/,[0-9]*,/,,/'
made trigger-before '11s/855699/853698/' ''
made factor-of-0 '3s/0\.5/0/' ''
made after-the-end '' '$s/$/left over/'
mkdir "$folder/spare-bits"
cp $binary.cfg "$folder/spare-bits/in.cfg"
{ head -c 13 $binary.dat; printf '\x80'; tail -c +15 $binary.dat; } > "$folder/spare-bits/in.dat"
told spare-bits
