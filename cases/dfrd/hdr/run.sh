# headers next to pairs: what triggered, losses, a change of rules, a record that the input cut; CR LF, ASCII
. files/dfrd.bash
cat > "$work/setup" <<'END'
station Northfield 110 kV
device Bay 3
analog IA,A,,A,1,0,0,-32767,32767,1,1,P
analog IB,B,,A,1,0,0,-32767,32767,1,1,P
status BREAKER,,,0
freq 50
rate 1000
limits 2,2,6,4
rules level 0 over 100;edge 0 rise
END
record() { # record NAME OPTION..: what the headers say; the clock is far from this start
    local name=$1
    shift
    mkdir "$folder.$name"
    "$dfrd" --quiet --start 1719829800000000 --hdr "$@" "$work/setup" "$folder.$name" | told | grep '^record'
    for file in "$folder.$name"/*.hdr; do
        echo "== ${file##*/}"
        tr -d '\r' < "$file" | sed 's/^Written by: dfrd [0-9.]*$/Written by: dfrd V/; /^Wall clock/s/: +[0-9]*\.[0-9]\{6\} s$/: +S s/'
        grep -q "$(printf '[^\r]$')" "$file" && echo 'a line without CR'
        LC_ALL=C grep -q "$(printf '[^ -~\r]')" "$file" && echo 'not ASCII'
    done
    (cd "$folder.$name" && printf '%s\n' *)
}
{
    printf 'scan 1,1/0\nscan 2,2/0\nlost\nscan 101,3/0\nscan 4,4/0\nscan 5,5/0\n'        # rule 0; a lost scan before the trigger
    printf 'scan 5,5/0\nscan 5,5/0\nscan 5,5/0\ntrigger\nscan 6,6/0\nscan 7,7/0\n'       # by hand
    printf 'rules edge 0 fall;level 1 under -5\nscan 8,8/1\nscan 8,8/1\nscan 9,-5/1\n'    # rule 1 of the new rules
    printf 'scan 8,8/1\nscan 8,8/1\nscan 8,8/1\nscan 8,8/1\nscan 8,8/0\n'                # rule 0 of the new rules, cut
} > "$work/lines"
record ascii < "$work/lines"
{ frames | record binary --raw --kind binary; } << 'END'
1 2/0
-32768 -32768/0
3 4/1
-32768 1/1
5 6/1
END
