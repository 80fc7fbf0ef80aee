# zsh -f offered.zsh FOLDER LINE..: prints for each line what zsh offers for its last word, sorted.
# FOLDER has the completions. An interactive zsh, on a terminal of its own, writes its offers to a file.
zmodload zsh/zpty zsh/zselect
export OFFERED=$(mktemp) COMPLETIONS=$1
await() {
    local turn text
    for turn in {1..1000}; do
        [[ $(tail -n 1 $OFFERED) == $1 ]] && return
        zpty -rt z text # (a terminal that isn't read is full after a while)
        zselect -t 1
    done
    print "$1 didn't come"
}
zpty z zsh -f -i
zpty -w z "PS1= PS2=; source ${(q)0:A:h}/inner.zsh"
await READY
for line in "${@[2,-1]}"; do
    : > $OFFERED
    zpty -w -n z $'\C-u'"$line"$'\t'
    await DONE
    sed '$d' $OFFERED | LC_ALL=C sort -u | paste -sd '|' | sed 's/|/ | /g'
done
zpty -d z
rm -f $OFFERED
