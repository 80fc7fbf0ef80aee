# the health of a recording: after its end; while no scan has come, before the first one and after it; a file that can't be written is
# named once and tried again
. files/dfrd.bash
shown() { # the values of a health file, those of the time as whether they are plausible; its form by promtool, if that is there
    ! type -P promtool > "$work/which" || promtool check metrics < "$1" 2>&1
    awk '/^# HELP/ { helped[$3] = 1 } /^# TYPE/ { typed[$3] = 1 } /^[^#]/ { sub(/{.*/, "", $1); if (!helped[$1] || !typed[$1]) print $1 ": no help or type" }' "$1"
    sed '/^#/d; s/version="[0-9.]*"/version="V"/; s/{station="Bay 1"/{station="S"/' "$1" |
        awk '/_age_/ { print $1, ($2 < 10 ? "young" : $2 < 60 ? "old" : $2); next } /_clock_/ { print $1, ($2 > 1.7e9 ? "of 1970" : $2); next } 1'
}
until_file() { for _ in $(seq 800); do grep -qs "$2" "$1" && return; sleep 0.05; done; echo "not written: $2"; }

ended() { # lines: six scans, one of them lost, and a record
    printf 'scan 10/\nlost\nscan 11/\nscan 12/\ntrigger\nscan 13/\nscan 14/\n' |
        "$dfrd" --quiet --start 0 --health "$work/ended.prom" dfr/replay/first/in "$folder" > "$work/ended.told"
    shown "$work/ended.prom"
}
silent() { # silent NAME OPTION.. : what is read of standard input before the silence
    local name=$1
    shift
    mkdir "$folder.$name"
    { cat; until_file "$work/$name.prom" '^dfrd_silent{.*} 1$'; cp "$work/$name.prom" "$work/$name.seen"; } |
        "$dfrd" --quiet --start 0 --health "$work/$name.prom" "$@" dfr/replay/first/in "$folder.$name" > "$work/$name.told"
    shown "$work/$name.seen" | grep 'scans\|lost\|recording\|silent\|age'
}
denied() { # its folder comes later
    mkdir "$folder.denied"
    { printf 'scan 1/\n'; until_file "$work/err" 'written'; mkdir "$work/later"; until_file "$work/later/prom" 'records'; printf 'scan 2/\n'; } |
        "$dfrd" --quiet --start 0 --health "$work/later/prom" dfr/replay/first/in "$folder.denied" 2> "$work/err" | told | grep -v '^silent'
    sed "s|$work|WORK|" "$work/err"
    grep '^dfrd_scans\|^dfrd_recording' "$work/later/prom"
    ls "$work/later"
}
ended > "$work/1" &
printf '# no scan\n' | silent before > "$work/2" &
printf '\1\0\2\0\3\0\4' | silent after --raw > "$work/3" &
denied > "$work/4" &
wait
for n in 1 2 3 4; do echo "== $n"; cat "$work/$n"; done
