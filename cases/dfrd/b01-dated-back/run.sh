# 3,001 scans of a thousand a second come at once: scan 0 is three seconds old, and the last one as new as the clock says
. files/dfrd.bash
seq 3001 | sed 's|.*|scan 1/|' > "$work/scans"
once() { "$dfrd" --quiet "$@" dfr/replay/first/in "$folder" > "$work/told"; }
age() { # how old scan 0 was when its line was printed, in whole seconds
    python3 -c '
import sys
from datetime import datetime
line = open(sys.argv[1]).readline().split()
print(int((datetime.fromisoformat(line[0]) - datetime.fromisoformat(line[2])).total_seconds()))' "$work/told"
}
once < "$work/scans"
age
python3 -c 'import sys; sys.stdout.buffer.write(bytes(6002))' | once --raw
age
# the clock of a record is the wall clock against the time of the newest scan that was read with it
{ cat "$work/scans"; echo trigger; printf 'scan 1/\nscan 2/\nscan 3/\n'; } > "$work/all"
once < "$work/all"
grep -o ' record 1 .* manual\| clock [^ ]*' "$work/told"
