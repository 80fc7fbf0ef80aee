# Completion of dfr for fish. Made by tools/manuals; do not edit.

# whether the line has one of these commands; without any, whether it has none
function __dfr_has
    set -l words (commandline -opc)
    if set -q words[2]
        contains -- $words[2] $argv
    else
        not set -q argv[1]
    end
end

# whether so many arguments come before the word
function __dfr_at
    set -l words (commandline -opc)
    set -e words[1..2]
    set -l place 0
    while set -q words[1]
        if contains -- $words[1] --kind
            set -e words[1]
        else if not string match -q -- '-*' $words[1]
            set place (math $place + 1)
        end
        set -e words[1]
    end
    contains $place $argv
end

# the records and folders, or all files if there are none
function __dfr_records
    set -l found (__fish_complete_path (commandline -ct))
    set -l records (string match -ri -- '^.*(?:\.cfg|\.dat|\.cff|/)(?:\t.*)?$' $found)
    if set -q records[1]
        printf '%s\n' $records
    else
        printf '%s\n' $found
    end
end

complete -c dfr -f
complete -c dfr -n __dfr_has -a replay -d 'Play the script on standard input and print each answer'
complete -c dfr -n __dfr_has -a live -d 'Play a script in three threads and write DIR/recN.cfg and DIR/recN.dat'
complete -c dfr -n __dfr_has -a read -d 'Read a pair of files and print what it holds'
complete -c dfr -n '__dfr_has replay live' -l kind -x -a 'ascii binary' -d 'The form of the data files; ascii if not given'
complete -c dfr -n '__dfr_has live; and __dfr_at 0' -F
complete -c dfr -n '__dfr_has live; and __dfr_at 1' -a '(__fish_complete_directories (commandline -ct))'
complete -c dfr -n '__dfr_has read; and __dfr_at 0 1' -a '(__dfr_records)'
