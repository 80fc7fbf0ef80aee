# Completion of dfrbus for fish. Made by tools/manuals; do not edit.

# whether so many arguments come before the word
function __dfrbus_at
    set -l words (commandline -opc)
    set -e words[1]
    set -l place 0
    while set -q words[1]
        if contains -- $words[1] 
            set -e words[1]
        else if not string match -q -- '-*' $words[1]
            set place (math $place + 1)
        end
        set -e words[1]
    end
    contains $place $argv
end

complete -c dfrbus -f
complete -c dfrbus -n '__dfrbus_at 0' -F
