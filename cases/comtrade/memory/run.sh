# each allocation of each command refused in turn: status 1 and `comtrade: out of memory`, before it what standard error has otherwise or
# nothing, a front of what is printed otherwise and no half pair of files; or all is as it is otherwise, where the program made up for it
folder=$(mktemp -d)
trap 'rm -r "$folder"' EXIT
most=2000
cc -O2 -shared -fPIC -o "$folder/refuse.so" comtrade/memory/refuse.c || { most=0; echo 'skipped: no C compiler' >&2; }
mkdir "$folder/made"
shopt -s nullglob
clear_made() {
    local made=("$folder"/made/*)
    [ "${#made[@]}" = 0 ] || rm "${made[@]}"
}
are_pairs() {
    local name cfg=("$folder"/made/*.cfg) dat=("$folder"/made/*.dat)
    [ "${#cfg[@]}" = "${#dat[@]}" ] || return 1
    for name in "${cfg[@]}"; do [ -e "${name%.cfg}.dat" ] || return 1; done
}
ran() { # the number of the allocation to be refused, standard input, the program's words
    LD_PRELOAD=$folder/refuse.so REFUSE=$1 "$comtrade" "${@:3}" < "$2" > "$folder/out" 2> "$folder/err" 9> "$folder/met"
    status=$? out=$(<"$folder/out") err=$(<"$folder/err")
}
as_wanted() { # the status, the output and the standard error of a run that isn't refused anything
    are_pairs || return 1
    [ "$status $out $err" = "$1 $2 $3" ] && return 0
    [ "$status" = 1 ] && [[ $2 == "$out"* ]] || return 1
    err=${err#"$3"$'\n'}
    [[ $err == 'comtrade: out of memory' || $err == 'comtrade: out of memory'$'\n''comtrade: '*' written'* ]]
}
refused() { # what is tried, standard input, the program's words
    local what=$1 n ill=0 whole
    shift
    clear_made
    ran 0 "$@"
    whole=("$status" "$out" "$err")
    for ((n = 1; n <= most; n++)); do
        clear_made
        ran "$n" "$@"
        [ -s "$folder/met" ] || break
        as_wanted "${whole[@]}" && continue
        ill=$((ill + 1))
        echo "$what: allocation $n: status $status: ${err:0:200}" >&2
    done
    [ "$n" != 1 ] || [ "$most" = 0 ] || ill=none
    echo "$what: runs that ended otherwise: $ill"
}
first="files/first.cfg files/first.dat"
refused show /dev/null show $first
refused 'show a fault' /dev/null show --strict files/first.cfg files/cut.dat
refused 'show repairs' /dev/null show files/first.cfg files/cut.dat
refused check /dev/null check $first
refused 'check a fault' /dev/null check files/first.cfg files/cut.dat
refused csv files/first.dat csv files/first.cfg -
refused plot /dev/null plot $first
refused convert /dev/null convert --kind binary $first "$folder/made/pair"
refused 'convert what the kind can not hold' /dev/null convert --kind ascii files/lenient.cfg files/binary.dat "$folder/made/pair"
refused extract dfr/replay/first/out extract "$folder/made"
refused help /dev/null help show
refused version /dev/null --version
refused 'no words' /dev/null
refused 'wrong words' /dev/null shows $first
refused 'standard input twice' /dev/null show - -
refused 'no file' /dev/null show files/none.cfg files/first.dat
refused 'a line' /dev/null fault --line ../examples/storm/line.toml "$folder/made"
refused 'no line' /dev/null fault --line files/first.cfg "$folder/made"
