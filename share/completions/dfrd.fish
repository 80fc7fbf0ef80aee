# Completion of dfrd for fish. Made by tools/manuals; do not edit.

# whether so many arguments come before the word
function __dfrd_at
    set -l words (commandline -opc)
    set -e words[1]
    set -l place 0
    while set -q words[1]
        if contains -- $words[1] --kind --frames --start --time --gap --orders --health --keep --keep-bytes --most --events --chatter
            set -e words[1]
        else if not string match -q -- '-*' $words[1]
            set place (math $place + 1)
        end
        set -e words[1]
    end
    contains $place $argv
end

complete -c dfrd -f
complete -c dfrd -l kind -x -a 'ascii binary' -d 'The form of the data files; ascii if not given'
complete -c dfrd -l raw -d 'Read scans as frames of bytes, not as lines'
complete -c dfrd -l frames -x -a 'raw counted' -d 'Read scans as frames: raw, as --raw, or counted, each with a mark and a counter'
complete -c dfrd -l clip -d 'With frames, take a sample of -32768 as -32767, not as missing'
complete -c dfrd -l start -x -a 'now' -d 'The time of the first scan: now (default) or microseconds since 1970-01-01 00:00:00 UTC'
complete -c dfrd -l time -x -a 'clock rate' -d 'Date records by the clock (default without --start) or by the rate alone'
complete -c dfrd -l gap -x -d 'The most lost scans for a pause of the input (default 1000000)'
complete -c dfrd -l pcap -d 'Read scans from a capture of the process bus, by the plan below `go` of SETUP'
complete -c dfrd -l look -d 'With --pcap alone: print what the capture has, and a set-up to start from'
complete -c dfrd -l wait -d 'Let the input wait, so that nothing is lost for want of speed (default: if it is a file)'
complete -c dfrd -l no-wait -d 'Do not let the input wait, even if it is a file'
complete -c dfrd -l orders -r -F -d 'Read an operator\'s orders (`trigger`, `rules ..`, `stop`) from a FIFO or a growing file'
complete -c dfrd -l health -r -F -d 'Write the recording\'s health into FILE every ten seconds, for Prometheus'
complete -c dfrd -l keep -x -d 'Keep at most N records; delete the oldest'
complete -c dfrd -l keep-bytes -x -d 'Keep at most this many bytes of records; delete the oldest'
complete -c dfrd -l most -x -d 'Write at most N records for each hour; report each other one'
complete -c dfrd -l hdr -d 'Write a header file next to each pair: a text for people'
complete -c dfrd -l events -r -F -d 'Append each change of a contact to FILE, as a line with its instant'
complete -c dfrd -l chatter -x -d 'Append at most N lines for a contact in a second (default 20)'
complete -c dfrd -l check -d 'Check SETUP and DIR, then exit'
complete -c dfrd -l quiet -d 'Do not print a line each minute'
complete -c dfrd -l journal -d 'Begin each line with its syslog level, as <6>, for journald'
complete -c dfrd -s h -l help -d 'Print help'
complete -c dfrd -s V -l version -d 'Print version'
complete -c dfrd -n '__dfrd_at 0' -F
complete -c dfrd -n '__dfrd_at 1' -a '(__fish_complete_directories (commandline -ct))'
