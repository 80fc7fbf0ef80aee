# Completion of comtrade for fish. Made by tools/manuals; do not edit.

# whether the line has one of these commands; without any, whether it has none
function __comtrade_has
    set -l words (commandline -opc)
    if set -q words[2]
        contains -- $words[2] $argv
    else
        not set -q argv[1]
    end
end

# whether so many arguments come before the word
function __comtrade_at
    set -l words (commandline -opc)
    set -e words[1..2]
    set -l place 0
    while set -q words[1]
        if contains -- $words[1] --from --to --channels --encoding --output --separator --decimal --width --height --station --min-current --type --line --by --shift --map --at --reference --frequency --phases --kind --dates --refuse
            set -e words[1]
        else if not string match -q -- '-*' $words[1]
            set place (math $place + 1)
        end
        set -e words[1]
    end
    contains $place $argv
end

# the records and folders, or all files if there are none
function __comtrade_records
    set -l found (__fish_complete_path (commandline -ct))
    set -l records (string match -ri -- '^.*(?:\.cfg|\.dat|\.cff|/)(?:\t.*)?$' $found)
    if set -q records[1]
        printf '%s\n' $records
    else
        printf '%s\n' $found
    end
end

complete -c comtrade -f
complete -c comtrade -n __comtrade_has -a show -d 'Print what a record holds: names, times, channels, extremes, changes, gaps'
complete -c comtrade -n __comtrade_has -a check -d 'Print the first error of each pair of 1999, or that it has none'
complete -c comtrade -n __comtrade_has -a csv -d 'Print the rows as CSV: times, values a*x + b, status channels'
complete -c comtrade -n __comtrade_has -a plot -d 'Draw a record as an SVG picture; of several, write a picture of each into the folder of -o'
complete -c comtrade -n __comtrade_has -a page -d 'Print an HTML page that shows a record in a browser; of several, write a page of each into the folder of -o'
complete -c comtrade -n __comtrade_has -a list -d 'Print one line per record, sorted by trigger time'
complete -c comtrade -n __comtrade_has -a events -d 'Print triggers, gaps and changes of status channels, in order of time'
complete -c comtrade -n __comtrade_has -a fault -d 'Print each fault: type, inception, clearing, breaker time, and how certain that is'
complete -c comtrade -n __comtrade_has -a report -d 'Print one HTML file on all records: list, events, faults, pictures, pages, doubts'
complete -c comtrade -n __comtrade_has -a compare -d 'Overlay two records in one SVG picture, and print how far their channels differ'
complete -c comtrade -n __comtrade_has -a measure -d 'Print fault inceptions; at a moment or in a window rms, phasors, harmonics, sequences'
complete -c comtrade -n __comtrade_has -a detect -d 'Run the detectors of LINES over a record, and print when each fires'
complete -c comtrade -n __comtrade_has -a convert -d 'Write the same record, or a part of it, as a pair with this data format'
complete -c comtrade -n __comtrade_has -a import -d 'Read files of 1991, 1999 or 2013 as relays write them, and write a valid pair of 1999'
complete -c comtrade -n __comtrade_has -a extract -d 'Cut what `dfr replay` printed (standard input) into DIR/recN.cfg and DIR/recN.dat'
complete -c comtrade -n __comtrade_has -a help -d 'Print this message or the help of the given subcommand(s)'
complete -c comtrade -s h -l help -d 'Print help'
complete -c comtrade -n '__comtrade_has' -s V -l version -d 'Print version'
complete -c comtrade -n '__comtrade_has show csv plot page compare measure convert' -l from -x -d 'Start: ms since the trigger (-20), an instant (2024-07-01T10:30:00.35), or row N'
complete -c comtrade -n '__comtrade_has show csv plot page compare measure convert' -l to -x -d 'End, in the same forms'
complete -c comtrade -n '__comtrade_has show csv plot page compare measure convert' -l channels -x -d 'Only these, joined by commas: ids (with * as wildcard), 3 (analogue), D5 (status)'
complete -c comtrade -n '__comtrade_has show csv plot page compare measure convert' -l changed -d 'Only the status channels that change'
complete -c comtrade -n '__comtrade_has show csv plot page compare measure convert' -l primary -d 'Values of the primary side'
complete -c comtrade -n '__comtrade_has show csv plot page compare measure convert' -l secondary -d 'Values of the secondary side'
complete -c comtrade -n '__comtrade_has show csv plot page compare measure convert' -l strict -d 'Accept only files of 1999 as the standard spells them; repair nothing'
complete -c comtrade -n '__comtrade_has show csv plot page list events fault report compare measure convert import' -l encoding -x -a 'utf-8 utf-16 latin1 windows-1251 windows-1252 cp437 cp850 cp866 gbk shift_jis' -d 'The encoding of names that are not ASCII'
complete -c comtrade -n '__comtrade_has show check list events fault measure detect' -l json -d 'Print JSON, in one line'
complete -c comtrade -n '__comtrade_has show check csv plot page list events fault report compare measure detect' -s o -l output -r -F -d 'Write FILE in place of standard output; an existing file is never overwritten'
complete -c comtrade -n '__comtrade_has check plot page list events fault report measure' -s r -l recursive -d 'Also read the records of folders within folders'
complete -c comtrade -n '__comtrade_has csv' -l separator -x -d 'Cell separator, such as \';\' or tab'
complete -c comtrade -n '__comtrade_has csv' -l decimal -x -d 'Decimal separator: . or ,'
complete -c comtrade -n '__comtrade_has plot compare' -l whole -d 'Draw all of a long record, not only the part around the trigger'
complete -c comtrade -n '__comtrade_has plot compare' -l all -d 'Draw every status channel, also those that do not change'
complete -c comtrade -n '__comtrade_has plot compare' -l width -x -d 'Width in pixels'
complete -c comtrade -n '__comtrade_has plot compare' -l height -x -d 'Height in pixels'
complete -c comtrade -n '__comtrade_has plot compare' -l print -d 'Draw black lines of different dashes on white, for paper'
complete -c comtrade -n '__comtrade_has list events' -l from -x -d 'Only from this instant on (2024-07-01T10:30 or 2024-07-01T10:30:00.35)'
complete -c comtrade -n '__comtrade_has list events' -l to -x -d 'Only up to this instant'
complete -c comtrade -n '__comtrade_has list events' -l station -x -d 'Only of the station with this name (with * as wildcard)'
complete -c comtrade -n '__comtrade_has list' -l min-current -x -d 'Only records whose greatest current has at least this size, in A'
complete -c comtrade -n '__comtrade_has events' -l type -x -a 'trigger change gap' -d 'Only these, joined by commas'
complete -c comtrade -n '__comtrade_has events' -l csv -d 'Print comma-separated values'
complete -c comtrade -n '__comtrade_has fault' -l long -d 'Print a block for each fault: phasors, contacts, and what each conclusion rests on'
complete -c comtrade -n '__comtrade_has fault' -l line -r -F -d 'Locate the faults on the line of FILE (TOML: length, r1, x1, r0, x0)'
complete -c comtrade -n '__comtrade_has compare' -l by -x -a 'instant trigger fault' -d 'Align by instant (default), trigger or fault'
complete -c comtrade -n '__comtrade_has compare' -l shift -x -d 'Move B by so many milliseconds'
complete -c comtrade -n '__comtrade_has compare' -l map -x -d 'Channels of A and the channels of B that belong to them, as UA=VA,IA=IL1'
complete -c comtrade -n '__comtrade_has measure' -l at -x -d 'Measure the last whole cycle ending at MOMENT (same forms as --from)'
complete -c comtrade -n '__comtrade_has measure' -l reference -x -d 'The channel that angles refer to, by id or number'
complete -c comtrade -n '__comtrade_has measure' -l frequency -x -d 'The line frequency in Hz, or measured: that of the signal there'
complete -c comtrade -n '__comtrade_has measure' -l phases -x -d 'The channels of the phases A, B and C, joined by commas: ids or numbers'
complete -c comtrade -n '__comtrade_has convert' -l kind -x -a 'ascii binary' -d 'The data format to write'
complete -c comtrade -n '__comtrade_has import' -l dates -x -a 'mdy dmy' -d 'Order of month and day in the dates'
complete -c comtrade -n '__comtrade_has import' -l refuse -x -a 'revision-1991 revision-2013 revision-absent revision-other sides-absent side-empty dates-mdy dates-dmy dates-ambiguous date-form years-2-digits time-24 leap-second fraction-long fraction-form fraction-colon instant-unset trigger-unset trigger-before-first no-timemult lines-2013-dropped status-3-fields status-4-fields number-empty counts-form counts-total rates-form index-order range-swapped range-form a-zero exponent-d decimal-comma separator-semicolon trailing-commas blank-lines line-ends-cr line-ends-crcr bom utf-16 cfg-1a texts-not-ascii text-long phase-long unit-empty text-comma text-nul ids-alike rate-line-absent rate-zero rows-fewer rows-more rows-lost row-cut sample-numbers stamps-restart stamps-against-rate stamps-decimal stamps-shifted stamps-wrapped stamps-ns stamps-long stamps-absent times-unknown values-decimal values-wide values-unsigned values-rounded missing-marks kind-binary32 kind-float32 kind-other kind-absent dat-1a dat-after-end row-size status-spare-bits big-endian cff cff-form cff-count cff-kind inf-dropped hdr-dropped' -d 'Write nothing if this repair is needed; may be given several times'
complete -c comtrade -n '__comtrade_has show csv compare; and __comtrade_at 0 1' -a '(__comtrade_records)'
complete -c comtrade -n '__comtrade_has check plot page list events fault report measure' -a '(__comtrade_records)'
complete -c comtrade -n '__comtrade_has detect; and __comtrade_at 0' -F
complete -c comtrade -n '__comtrade_has detect; and __comtrade_at 1 2' -a '(__comtrade_records)'
complete -c comtrade -n '__comtrade_has convert import; and __comtrade_at 0 1 2' -a '(__comtrade_records)'
complete -c comtrade -n '__comtrade_has extract; and __comtrade_at 0' -a '(__fish_complete_directories (commandline -ct))'
complete -c comtrade -n '__comtrade_has help; and __comtrade_at 0' -a 'show check csv plot page list events fault report compare measure detect convert import extract help'
