# Completion of dfrbus for bash. Made by tools/manuals; do not edit.
_dfrbus() {
    local cur=${COMP_WORDS[COMP_CWORD]} first=1 place=0 more='' only='' option='' flags='' valued=''
    local -a places=()
    local i word
    COMPREPLY=()
    [ "$cur" != = ] || cur=''
    places=(files)
    for ((i = first; i < COMP_CWORD; i++)); do
        word=${COMP_WORDS[i]} option=''
        if [ -n "$only" ] || [[ $word != -?* ]]; then
            place=$((place + 1))
        elif [ "$word" = -- ]; then
            only=yes
        elif [[ " $valued " == *" $word "* ]]; then
            option=$word i=$((i + 1))
            [ "${COMP_WORDS[i]-}" != = ] || i=$((i + 1))
        fi
    done
    [ "$i" -gt "$COMP_CWORD" ] || option=''
    word=''
    if [ -n "$option" ]; then
        case $option in

        *) compopt +o default 2> /dev/null; return ;;
        esac
    elif [[ -z $only && $cur == -* ]]; then
        word=$flags
    else
        case ${places[place]:-$more} in
        files) return ;;
        *) compopt +o default 2> /dev/null; return ;;
        esac
    fi
    mapfile -t COMPREPLY < <(compgen -W "$word" -- "$cur")
}
complete -o default -F _dfrbus dfrbus
