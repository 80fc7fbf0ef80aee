# The script of the service dfrd@NAME: an input that is a command, one that is the FIFO, an operator, stopping, and errors in a set-up.
command -v python3 > /dev/null && command -v setsid > /dev/null || { echo "no python3 or no setsid" >&2; exit 77; }
export LC_ALL=C DFRD_ROOT
DFRD_ROOT=$(mktemp -d)
trap 'rm -rf "$DFRD_ROOT"' EXIT
mkdir -p "$DFRD_ROOT/etc/dfrd" "$DFRD_ROOT/bin"
ln -s "$dfrd" "$DFRD_ROOT/bin/dfrd"
PATH=$DFRD_ROOT/bin:$PATH
station=$PWD/../packaging/dfr/station converter=$PWD/../examples/station/converter

post=720 # scans after a trigger
begin() { # begin NAME LINE..: a station with these lines below `go`
    name=$1
    shift
    mkdir -p "$DFRD_ROOT/run/dfrd/$name" "$DFRD_ROOT/var/lib/dfrd/$name"
    { sed "s/^limits .*/limits 480,$post,96000,8/" ../examples/station/setup; echo go; printf '%s\n' "$@"; } > "$DFRD_ROOT/etc/dfrd/$name.setup"
    log=$DFRD_ROOT/$name.log run=$DFRD_ROOT/run/dfrd/$name
    : > "$log"
    "$station" start "$name" > "$log" < /dev/null &
    pid=$!
}
until_told() { for _ in $(seq 600); do grep -q "$1" "$log" && return; sleep 0.05; done; echo "not told: $1"; }
until_opened() { # the operator asks again as long as there is no scan yet
    until_told '^[^ ]* start '
    for _ in $(seq 300); do
        echo trigger > "$run/orders"
        sleep 0.2
        ! grep -q 'operator at .* trigger opened' "$log" || return
    done
    echo "no trigger is taken: $(tail -n 1 "$log")"
}
ended() { wait "$pid"; echo "status $?"; cut -d' ' -f2- "$log" | grep "$1" | sed 's/[0-9][0-9.T-]*-1\.\(cfg\|dat\)/NAME.\1/g; s/[0-9][0-9]*/N/g; s/ clock [-+N.]*\( offset [-+N.]*\( drift [-+N.]*\)\?\)\?//'; }
pairs() { (cd "$DFRD_ROOT/var/lib/dfrd/$name" && ls) | sed 's/.*\././'; }

echo "== a command; an operator's record is open when the station is stopped"
post=48000
begin bay1 '' '# the example' "input exec $converter 60 1000" "options --raw --quiet --keep 3"
until_opened
"$station" stop bay1 "$pid"
ended 'cut\|^end'
pairs
[ -e "$run/input.pid" ] || echo "the input has ended"
post=720

echo "== the input ignores SIGTERM and has children: it is killed after five seconds"
begin bay2 "input trap '' TERM; $converter 60 1000; sleep 100" "options --raw"
until_told '^[^ ]* start '
"$station" stop bay2 "$pid"
ended '^end'

# (the FIFOs have their mode as soon as they are there: under the umask of the unit, with a chmod that does nothing)
echo "== the FIFO"
umask 027
ln -s "$(type -P true)" "$DFRD_ROOT/bin/chmod"
begin bay3 "options --raw"
for _ in $(seq 600); do [ -p "$run/input" ] && [ -e "$run/input.pid" ] && break; sleep 0.05; done
stat -c '%A %n' "$run"/[io]* | sed "s|$run/||; /pid/d"
"$converter" 2 2 > "$run/input"
ended '^record\|^end'
pairs

# (here the input takes its time to get a process group of its own)
printf '#!/bin/sh\nsleep 0.5\nexec %s "$@"\n' "$(type -P setsid)" | install -m 755 /dev/stdin "$DFRD_ROOT/bin/setsid"
echo "== stopped before anything was written to the FIFO"
begin bay4 "options --raw"
for _ in $(seq 600); do [ -e "$run/input.pid" ] && break; sleep 0.05; done
"$station" stop bay4 "$pid"
ended '^end'

echo "== stopped as soon as it is started"
begin bay6 "options --raw"
"$station" stop bay6 "$pid"
ended '^end'

echo "== errors"
begin bay5 "input cat" "inputs cat" 2> "$DFRD_ROOT/err"
ended .
sed "s|$DFRD_ROOT||" "$DFRD_ROOT/err"
"$station" start 2> "$DFRD_ROOT/err"
echo "status $?"
sed "s|$DFRD_ROOT||" "$DFRD_ROOT/err"
