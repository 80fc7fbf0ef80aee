# What the cases of `comtrade import` share. The base is a pair of 1999 in its written form (base.cfg, base.dat; the same with BINARY
# data is binary.cfg, binary.dat); each case edits it into another spelling, and what must come out is the base again, edited where the
# file says something else. A line is printed for each: its name, and the keys that are told, in their order.
LC_ALL=C
folder=$(mktemp -d)
trap 'rm -r "$folder"' EXIT
base=files/import/base
binary=files/import/binary

# name; the edits of the base's cfg and dat that make what is imported; the edits that make what must come out
pair() {
    mkdir "$folder/$1"
    sed -b -e "$2" $base.cfg > "$folder/$1/in.cfg"
    sed -b -e "$3" $base.dat > "$folder/$1/in.dat"
    sed -b -e "$4" $base.cfg > "$folder/$1/want.cfg"
    sed -b -e "$5" $base.dat > "$folder/$1/want.dat"
    imported "$1"
}

# what is imported stands in the folder of this name, and beside it what must come out
imported() {
    local of="$folder/$1" files="$folder/$1/in.cfg $folder/$1/in.dat"
    shift
    [ -f "$of/in.cff" ] && files=$of/in.cff
    "$comtrade" import "$@" $files "$of/out" > "$of/told" 2>&1
    local status=$?
    echo "${of##*/}:$(sed -n 's/^\([a-z0-9-]*\): .*(.*)$/ \1/p' "$of/told" | tr -d '\n')"
    if [ $status != 0 ]; then
        echo "status $status"
        sed "s|$folder/||g" "$of/told"
    fi
    cmp "$of/out.cfg" "$of/want.cfg" || diff "$of/out.cfg" "$of/want.cfg" | cat -v
    cmp "$of/out.dat" "$of/want.dat" || diff -a "$of/out.dat" "$of/want.dat" | cat -v
}

# name and edits of what must be refused; why is printed, and that nothing is there
refused() {
    mkdir "$folder/$1"
    sed -b -e "$2" $base.cfg > "$folder/$1/in.cfg"
    sed -b -e "$3" $base.dat > "$folder/$1/in.dat"
    "$comtrade" import "$folder/$1/in.cfg" "$folder/$1/in.dat" "$folder/$1/out" > "$folder/$1/told" 2>&1
    echo "$1: status $?: $(sed "s|$folder/$1/||g" "$folder/$1/told")"
    ls "$folder/$1" | grep out
}
