# What bash, fish and zsh offer for the last word of a line. The offers of bash are printed, and those
# of fish and zsh where they differ.
folder=$(mktemp -d)
trap 'rm -rf "$folder"' EXIT
skipped() { echo "skipped: $*" >&2; }
here=$(cd ../share/completions && pwd) cases=$(cd packaging/completions && pwd)
mkdir -p "$folder/place/sub" "$folder/home"
cd "$folder/place" || exit 1
touch rec1.cfg rec1.dat REC2.CFF notes.txt 'two words.Cfg'

# offered SHELL LINE: the words that a shell offers for the last word of a line, sorted
offered_by_bash() {
    bash -c '. "$1/${2%% *}.bash"
        IFS=" " read -r -a COMP_WORDS <<< "$2"
        case $2 in *" ") COMP_WORDS+=("") ;; esac
        COMP_CWORD=$((${#COMP_WORDS[@]} - 1))
        "_${2%% *}"
        [ ${#COMPREPLY[@]} = 0 ] || printf "%s\n" "${COMPREPLY[@]}"' - "$here" "$1"
}
offered_by_fish() {
    HOME=$folder/home fish --no-config -c 'source $argv[1]/(string split " " -- $argv[2])[1].fish; complete -C $argv[2]' \
        "$here" "$1" | cut -f 1 | sed 's|/$||; s/\\ / /g'
}
offered() { "offered_by_$1" "$2" | LC_ALL=C sort | paste -sd '|' | sed 's/|/ | /g'; }

lines=(
    'comtrade ' 'comtrade sho' 'comtrade -' 'comtrade help comp'
    'comtrade show ' 'comtrade show rec1.c' 'comtrade show r' 'comtrade show rec1.cfg '
    'comtrade show rec1.cfg rec1.dat '
    'comtrade show --from -20 --c' 'comtrade show --from -20 r' 'comtrade show --encoding ' 'comtrade show --kind '
    'comtrade list sub ' 'comtrade list sub rec1.cfg r' 'comtrade events --j'
    'comtrade convert --kind ' 'comtrade convert --kind b' 'comtrade convert --kind ascii rec1.cfg ' 'comtrade convert -'
    'comtrade plot --width ' 'comtrade compare --by ' 'comtrade compare rec1.cfg r'
    'comtrade import --dates ' 'comtrade import --refuse values-'
    'comtrade import --refuse bom --refuse utf' 'comtrade extract ' 'comtrade extract sub '
    'dfr ' 'dfr live --kind ' 'dfr live --kind ascii notes.txt ' 'dfr read ' 'dfr read rec1.cfg '
    'dfrd --kind ' 'dfrd --start ' 'dfrd --ke' 'dfrd --keep ' 'dfrd notes.txt ' 'dfrd --raw --kind ascii notes.txt s'
)
for line in "${lines[@]}"; do
    got=$(offered bash "$line")
    echo "$line: $got"
    printf '%s\n' "$got" >> "$folder/bash"
done

# in bash a value may follow = too, which is a word of its own there
bash -c '. "$1/comtrade.bash"; COMP_WORDS=(comtrade convert --kind = b) COMP_CWORD=4; _comtrade; echo "--kind=b: ${COMPREPLY[*]}"
    COMP_WORDS=(comtrade convert --kind =) COMP_CWORD=3; _comtrade; echo "--kind=: ${COMPREPLY[*]}"
    COMP_WORDS=(comtrade convert --kind = ascii r) COMP_CWORD=5; _comtrade; echo "--kind=ascii r: ${COMPREPLY[*]}"' - "$here"

mapfile -t wanted < "$folder/bash"
# compare SHELL: what it offers, line by line on standard input, with what bash does
compare() {
    mapfile -t got
    for ((i = 0; i < ${#lines[@]}; i++)); do
        [ -n "${wanted[i]}" ] || [[ ${got[i]} != -* ]] || continue # zsh offers options where no argument is left
        [ "${got[i]}" = "${wanted[i]}" ] || echo "$1: ${lines[i]}: ${got[i]}"
    done
}
if command -v fish > "$folder/said"; then
    for line in "${lines[@]}"; do offered fish "$line"; done | compare fish
else
    skipped "no fish"
fi
if command -v zsh > "$folder/said"; then
    HOME=$folder/home zsh -f "$cases/offered.zsh" "$here" "${lines[@]}" | sed 's/\\ / /g' | compare zsh
else
    skipped "no zsh"
fi
