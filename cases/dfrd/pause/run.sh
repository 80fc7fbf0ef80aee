# a converter that stands still for three seconds: lost scans take their place, and a record after it has the date of the clock
. files/dfrd.bash
# 500 scans in half a second, a pause of three seconds, and 100 more, with a trigger
paused() { python3 -c '
import sys, time
def send(count):
    for _ in range(count):  # 10 scans each 10 ms
        sys.stdout.write("scan 1/\n" * 10)
        sys.stdout.flush()
        time.sleep(0.01)
send(50)
time.sleep(3)
send(10)
print("trigger\nscan 1/\nscan 2/\nscan 3/", flush=True)'; }
paused | "$dfrd" --quiet dfr/replay/first/in "$folder" > "$work/told"
# three thousand scans and some more, since the converter takes longer than it says
grep -o 'lost [0-9]* from [0-9]* to [0-9]* silent' "$work/told" |
    awk '{ print (3000 <= $2 && $2 < 6000 && $6 - $4 + 1 == $2) ? "lost from " $4 : $0 }'
# by how many seconds the date of the record is after the instant at which its line was printed
python3 -c '
import re, sys
from datetime import datetime
line = next(l for l in open(sys.argv[1]) if " record 1 " in l)
date = datetime.strptime(re.search(r"(\d{8}T\d{6}\.\d{6})-1\.cfg", line).group(1), "%Y%m%dT%H%M%S.%f")
print(round((date - datetime.fromisoformat(line.split()[0])).total_seconds()))' "$work/told"
rm "$folder"/*
# with --time rate nothing is lost
paused | "$dfrd" --quiet --time rate dfr/replay/first/in "$folder" > "$work/told"
grep -o ' end scans .*' "$work/told"
