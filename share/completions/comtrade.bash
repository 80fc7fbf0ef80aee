# Completion of comtrade for bash. Made by tools/manuals; do not edit.
_comtrade() {
    local cur=${COMP_WORDS[COMP_CWORD]} first=2 place=0 more='' only='' option='' flags='' valued=''
    local -a places=()
    local i word
    COMPREPLY=()
    [ "$cur" != = ] || cur=''
    [ "$COMP_CWORD" -gt 1 ] && word=${COMP_WORDS[1]} || word='' first=1
    case $word in
    '')
        flags='-h --help -V --version'
        places=(commands)
        ;;
    show)
        flags='--from --to --channels --changed --primary --secondary --strict --encoding --json -o
               --output -h --help'
        valued='--from --to --channels --encoding --output'
        places=(records records)
        ;;
    check)
        flags='-r --recursive --json -o --output -h --help'
        valued='--output'
        places=(records)
        more=records
        ;;
    csv)
        flags='--from --to --channels --changed --primary --secondary --strict --encoding
               --separator --decimal -o --output -h --help'
        valued='--from --to --channels --encoding --separator --decimal --output'
        places=(records records)
        ;;
    plot)
        flags='-r --recursive --from --to --channels --changed --primary --secondary --strict
               --encoding --whole --all --width --height --print -o --output -h --help'
        valued='--from --to --channels --encoding --width --height --output'
        places=(records)
        more=records
        ;;
    page)
        flags='-r --recursive --from --to --channels --changed --primary --secondary --strict
               --encoding -o --output -h --help'
        valued='--from --to --channels --encoding --output'
        places=(records)
        more=records
        ;;
    list)
        flags='-r --recursive --from --to --station --json --encoding -o --output --min-current -h
               --help'
        valued='--from --to --station --encoding --output --min-current'
        places=(records)
        more=records
        ;;
    events)
        flags='-r --recursive --from --to --station --json --encoding -o --output --type --csv -h
               --help'
        valued='--from --to --station --encoding --output --type'
        places=(records)
        more=records
        ;;
    fault)
        flags='-r --recursive --long --line --json --encoding -o --output -h --help'
        valued='--line --encoding --output'
        places=(records)
        more=records
        ;;
    report)
        flags='-r --recursive --encoding -o --output -h --help'
        valued='--encoding --output'
        places=(records)
        more=records
        ;;
    compare)
        flags='--by --shift --map --from --to --channels --changed --primary --secondary --strict
               --encoding --whole --all --width --height --print -o --output -h --help'
        valued='--by --shift --map --from --to --channels --encoding --width --height --output'
        places=(records records)
        ;;
    measure)
        flags='-r --recursive --from --to --channels --changed --primary --secondary --strict
               --encoding --at --reference --frequency --phases --json -o --output -h --help'
        valued='--from --to --channels --encoding --at --reference --frequency --phases --output'
        places=(records)
        more=records
        ;;
    detect)
        flags='--json -o --output -h --help'
        valued='--output'
        places=(files records records)
        ;;
    convert)
        flags='--kind --from --to --channels --changed --primary --secondary --strict --encoding -h
               --help'
        valued='--kind --from --to --channels --encoding'
        places=(records records records)
        ;;
    import)
        flags='--dates --refuse --encoding -h --help'
        valued='--dates --refuse --encoding'
        places=(records records records)
        ;;
    extract)
        flags='-h --help'
        places=(folders)
        ;;
    help)
        places=(commands)
        ;;
    esac
    for ((i = first; i < COMP_CWORD; i++)); do
        word=${COMP_WORDS[i]} option=''
        if [ -n "$only" ] || [[ $word != -?* ]]; then
            place=$((place + 1))
        elif [ "$word" = -- ]; then
            only=yes
        elif [[ " $valued " == *" $word "* ]]; then
            option=$word i=$((i + 1))
            [ "${COMP_WORDS[i]-}" != = ] || i=$((i + 1))
        fi
    done
    [ "$i" -gt "$COMP_CWORD" ] || option=''
    word=''
    if [ -n "$option" ]; then
        case $option in
        --encoding) word='utf-8 utf-16 latin1 windows-1251 windows-1252 cp437 cp850 cp866 gbk shift_jis' ;;
        --output) return ;;
        --type) word='trigger change gap' ;;
        --line) return ;;
        --by) word='instant trigger fault' ;;
        --kind) word='ascii binary' ;;
        --dates) word='mdy dmy' ;;
        --refuse) word='revision-1991 revision-2013 revision-absent revision-other sides-absent side-empty
            dates-mdy dates-dmy dates-ambiguous date-form years-2-digits time-24 leap-second
            fraction-long fraction-form fraction-colon instant-unset trigger-unset
            trigger-before-first no-timemult lines-2013-dropped status-3-fields status-4-fields
            number-empty counts-form counts-total rates-form index-order range-swapped range-form
            a-zero exponent-d decimal-comma separator-semicolon trailing-commas blank-lines
            line-ends-cr line-ends-crcr bom utf-16 cfg-1a texts-not-ascii text-long phase-long
            unit-empty text-comma text-nul ids-alike rate-line-absent rate-zero rows-fewer rows-more
            rows-lost row-cut sample-numbers stamps-restart stamps-against-rate stamps-decimal
            stamps-shifted stamps-wrapped stamps-ns stamps-long stamps-absent times-unknown
            values-decimal values-wide values-unsigned values-rounded missing-marks kind-binary32
            kind-float32 kind-other kind-absent dat-1a dat-after-end row-size status-spare-bits
            big-endian cff cff-form cff-count cff-kind inf-dropped hdr-dropped' ;;
        *) compopt +o default 2> /dev/null; return ;;
        esac
    elif [[ -z $only && $cur == -* ]]; then
        word=$flags
    else
        case ${places[place]:-$more} in
        commands) word='show check csv plot page list events fault report compare measure detect convert import extract help' ;;
        folders)
            compopt -o filenames 2> /dev/null
            mapfile -t COMPREPLY < <(compgen -d -- "$cur")
            return
            ;;
        records) # if there are none, bash offers all files
            compopt -o filenames 2> /dev/null
            mapfile -t COMPREPLY < <(
                compgen -d -- "$cur"
                for pattern in '*.[cC][fF][gG]' '*.[dD][aA][tT]' '*.[cC][fF][fF]'; do
                    compgen -f -X "!$pattern" -- "$cur"
                done
            )
            return
            ;;
        files) return ;;
        *) compopt +o default 2> /dev/null; return ;;
        esac
    fi
    mapfile -t COMPREPLY < <(compgen -W "$word" -- "$cur")
}
complete -o default -F _comtrade comtrade
