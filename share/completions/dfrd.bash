# Completion of dfrd for bash. Made by tools/manuals; do not edit.
_dfrd() {
    local cur=${COMP_WORDS[COMP_CWORD]} first=1 place=0 more='' only='' option='' flags='' valued=''
    local -a places=()
    local i word
    COMPREPLY=()
    [ "$cur" != = ] || cur=''
    flags='--kind --raw --frames --clip --start --time --gap --pcap --look --wait --no-wait --orders
           --health --keep --keep-bytes --most --hdr --events --chatter --check --quiet --journal -h
           --help -V --version'
    valued='--kind --frames --start --time --gap --orders --health --keep --keep-bytes --most --events --chatter'
    places=(files folders)
    for ((i = first; i < COMP_CWORD; i++)); do
        word=${COMP_WORDS[i]} option=''
        if [ -n "$only" ] || [[ $word != -?* ]]; then
            place=$((place + 1))
        elif [ "$word" = -- ]; then
            only=yes
        elif [[ " $valued " == *" $word "* ]]; then
            option=$word i=$((i + 1))
            [ "${COMP_WORDS[i]-}" != = ] || i=$((i + 1))
        fi
    done
    [ "$i" -gt "$COMP_CWORD" ] || option=''
    word=''
    if [ -n "$option" ]; then
        case $option in
        --kind) word='ascii binary' ;;
        --frames) word='raw counted' ;;
        --start) word='now' ;;
        --time) word='clock rate' ;;
        --orders) return ;;
        --health) return ;;
        --events) return ;;
        *) compopt +o default 2> /dev/null; return ;;
        esac
    elif [[ -z $only && $cur == -* ]]; then
        word=$flags
    else
        case ${places[place]:-$more} in
        folders)
            compopt -o filenames 2> /dev/null
            mapfile -t COMPREPLY < <(compgen -d -- "$cur")
            return
            ;;
        files) return ;;
        *) compopt +o default 2> /dev/null; return ;;
        esac
    fi
    mapfile -t COMPREPLY < <(compgen -W "$word" -- "$cur")
}
complete -o default -F _dfrd dfrd
