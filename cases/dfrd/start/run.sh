# without --start the instant of scan 0 is that at which it came
. files/dfrd.bash
now() { date -u +%Y-%m-%dT%H:%M:%S.%6N; }
before=$(now)
echo 'scan 1/' | "$dfrd" --quiet dfr/replay/first/in "$folder" > "$work/told"
after=$(now)
start=$(sed -n 's/.* start \(\S*\) rate 1000$/\1/p' "$work/told")
[[ ! $start < $before && ! $after < $start ]] && echo between
