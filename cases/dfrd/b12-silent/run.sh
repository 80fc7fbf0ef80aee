# no scan for ten seconds, before the first scan and after it: told once, and told when scans come again
. files/dfrd.bash
once() { # $1: the name, $2: what comes before the silence
    { printf "$2"; sleep 11; printf 'scan 2/\nscan 3/\n'; sleep 0.5; } |
        "$dfrd" --quiet --start 0 dfr/replay/first/in "$folder.$1" | told > "$work/$1"
}
mkdir "$folder.before" "$folder.after"
once before '# no scan\n' &
once after 'scan 1/\n' &
wait
cat "$work/before" "$work/after"
