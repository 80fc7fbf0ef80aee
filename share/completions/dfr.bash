# Completion of dfr for bash. Made by tools/manuals; do not edit.
_dfr() {
    local cur=${COMP_WORDS[COMP_CWORD]} first=2 place=0 more='' only='' option='' flags='' valued=''
    local -a places=()
    local i word
    COMPREPLY=()
    [ "$cur" != = ] || cur=''
    [ "$COMP_CWORD" -gt 1 ] && word=${COMP_WORDS[1]} || word='' first=1
    case $word in
    '')
        places=(commands)
        ;;
    replay)
        flags='--kind'
        valued='--kind'
        ;;
    live)
        flags='--kind'
        valued='--kind'
        places=(files folders)
        ;;
    read)
        places=(records records)
        ;;
    esac
    for ((i = first; i < COMP_CWORD; i++)); do
        word=${COMP_WORDS[i]} option=''
        if [ -n "$only" ] || [[ $word != -?* ]]; then
            place=$((place + 1))
        elif [ "$word" = -- ]; then
            only=yes
        elif [[ " $valued " == *" $word "* ]]; then
            option=$word i=$((i + 1))
            [ "${COMP_WORDS[i]-}" != = ] || i=$((i + 1))
        fi
    done
    [ "$i" -gt "$COMP_CWORD" ] || option=''
    word=''
    if [ -n "$option" ]; then
        case $option in
        --kind) word='ascii binary' ;;
        *) compopt +o default 2> /dev/null; return ;;
        esac
    elif [[ -z $only && $cur == -* ]]; then
        word=$flags
    else
        case ${places[place]:-$more} in
        commands) word='replay live read' ;;
        folders)
            compopt -o filenames 2> /dev/null
            mapfile -t COMPREPLY < <(compgen -d -- "$cur")
            return
            ;;
        records) # if there are none, bash offers all files
            compopt -o filenames 2> /dev/null
            mapfile -t COMPREPLY < <(
                compgen -d -- "$cur"
                for pattern in '*.[cC][fF][gG]' '*.[dD][aA][tT]' '*.[cC][fF][fF]'; do
                    compgen -f -X "!$pattern" -- "$cur"
                done
            )
            return
            ;;
        files) return ;;
        *) compopt +o default 2> /dev/null; return ;;
        esac
    fi
    mapfile -t COMPREPLY < <(compgen -W "$word" -- "$cur")
}
complete -o default -F _dfr dfr
