# Makes an interactive zsh write what a completion adds into the file $OFFERED.
fpath=($COMPLETIONS $fpath)
autoload -Uz compinit
compinit -u -D
zstyle ':completion:*' completer _complete
offer() {
    zle complete-word
    print DONE >> $OFFERED
}
zle -N offer
bindkey '^I' offer
compadd() {
    local -a hits
    if [[ " $* " != *' -'[OAD]' '* ]]; then
        builtin compadd -O hits "$@"
        (( $#hits )) && print -rl -- $hits >> $OFFERED
    fi
    builtin compadd "$@"
}
print READY >> $OFFERED
