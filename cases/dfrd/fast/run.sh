# a converter that sends twice as many scans a second as its set-up says: a record has the date of the clock, and with --time rate
# it is in the future by as long as the converter ran
. files/dfrd.bash
fast() { python3 -c '
import sys, time
begun = time.monotonic()
for step in range(1, 151):  # 40 scans each 20 ms
    sys.stdout.write("scan 1/\n" * 40)
    sys.stdout.flush()
    time.sleep(max(0, begun + step * 0.02 - time.monotonic()))
print("trigger\nscan 1/\nscan 2/\nscan 3/", flush=True)'; }
# by how many seconds the date of a record is after the instant at which its line was printed
ahead() { python3 -c '
import re, sys
from datetime import datetime
line = next(l for l in open(sys.argv[1]) if " record 1 " in l)
date = datetime.strptime(re.search(r"(\d{8}T\d{6}\.\d{6})-1\.cfg", line).group(1), "%Y%m%dT%H%M%S.%f")
print(round((date - datetime.fromisoformat(line.split()[0])).total_seconds()))' "$1"; }
fast | "$dfrd" --quiet dfr/replay/first/in "$folder" > "$work/told"
ahead "$work/told"
cfg=$(echo "$folder"/*.cfg)
# the file says what its name says
grep -c "$(sed 's/.*\/\([0-9]\{4\}\)\([0-9]\{2\}\)\([0-9]\{2\}\)T\(..\)\(..\)\(..\.[0-9]\{6\}\)-1.cfg/\3\/\2\/\1,\4:\5:\6/' <<< "$cfg")" "$cfg"
"$comtrade" check "$cfg" > /dev/null; echo "check $?"
sed -n 's/.* record .* offset \(-[0-9.]*\).*/\1/p' "$work/told" | awk '{ printf "offset %.0f\n", $1 }'
rm "$folder"/*
fast | "$dfrd" --quiet --time rate dfr/replay/first/in "$folder" > "$work/told"
ahead "$work/told"
grep -c ' offset' "$work/told" || true
