# the file of events of recordings by chance, compared line by line with what another program computes from the whole recording; then the
# date of an event: that of a record which is triggered by the same scan
. files/dfrd.bash
for seed in $(seq 24); do
    most=$((seed % 4 ? seed % 7 + 1 : 20))
    python3 files/events.py make "$seed" "$work"
    rm -f "$work/events"
    "$dfrd" --quiet --start 0 --events "$work/events" --chatter "$most" "$work/setup" "$folder" < "$work/scans" > "$work/told" || echo "seed $seed: $?"
    python3 files/events.py told "$seed" "$most" "$work/events" | sed "s/^/seed $seed: /"
done | awk '{ if (/the same$/) { same++; lines += $3; chatter += $5 } else print } END { print same, "recordings,", (lines > 5000 ? "many" : lines), "lines,", (chatter > 500 ? "many" : chatter), "of chatter" }'

# by the clock: the record that a contact triggers and its event have one instant, up to what the clock was adjusted between
printf 'station S\ndevice D\nanalog A,,,A,1,0,0,-100,100,1,1,P\nstatus Trip,,,0\nfreq 50\nrate 1000\nlimits 9,1,11,1\nrules edge 0 rise\n' > "$work/setup"
mkdir "$work/clock"
(for n in $(seq 0 14); do for k in $(seq 100); do echo "scan 1/$((n * 100 + k == 701))"; done; sleep 0.1; done) |
    "$dfrd" --quiet --events "$work/by-clock" "$work/setup" "$work/clock" > "$work/told"
python3 - "$work"/clock/*.cfg "$work/by-clock" <<'P'
import sys
from datetime import datetime, timezone
cfg = open(sys.argv[1]).read().split('\n')
trigger = datetime.strptime(cfg[-4], '%d/%m/%Y,%H:%M:%S.%f')
lines = [line.split(',') for line in open(sys.argv[2]).read().split('\n')]
event = datetime.strptime(lines[1][0], '%Y-%m-%d %H:%M:%S.%f')
now = datetime.now(timezone.utc).replace(tzinfo=None)
print(len(lines), lines[1][1:], 'one instant' if abs((event - trigger).total_seconds()) < 0.1 else (event, trigger), 'of now' if abs((event - now).total_seconds()) < 60 else (event, now))
P
