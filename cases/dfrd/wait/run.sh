# a recording of 60,000 scans from a file: each record of a replay, each once, and nothing lost, though the shelf holds two
. files/dfrd.bash
python3 - "$work" <<'END'
import sys
work = sys.argv[1]
head = ["station Bay 1", "device DFR", "analog IA,A,,A,1,0,0,-32767,32767,1,1,P", "status 52A,,,0", "freq 50", "rate 1000", "start 0",
        "limits 20,40,100,2", "rules level 0 over 900;edge 0 rise", "go"]
scans = [f"scan {1000 if k % 261 == 200 and k < 59_800 else k % 97}/{int(k % 1000 > 500 and k < 59_800)}" for k in range(60_000)]
open(f"{work}/setup", "w").write("\n".join(head[:-1]) + "\n")
open(f"{work}/scans", "w").write("\n".join(scans) + "\n")
open(f"{work}/script", "w").write("\n".join(head + [it + "\ntake" for it in scans]) + "\n")
END
"$dfr" replay < "$work/script" > "$work/replayed"
"$dfrd" --quiet --start 0 "$work/setup" "$folder" < "$work/scans" > "$work/told"
echo "status $?"
cut -d' ' -f2- "$work/told" | grep -v '^record'
for kind in '' ' --no-wait'; do
    "$dfrd" --check$kind --start 0 "$work/setup" "$folder" < "$work/scans" > /dev/null
    echo "check$kind $?"
done
"$dfrd" --wait --no-wait "$work/setup" "$folder" < /dev/null 2>&1 | head -1
python3 - "$work/replayed" "$folder" <<'END'
import os, sys
replayed = open(sys.argv[1], "rb").read()
folder = sys.argv[2]
wanted, at = [], 0
while True:
    found = replayed.find(b"\ncfg ", at)
    if found < 0:
        break
    end = replayed.index(b"\n", found + 1)
    size = int(replayed[found + 5:end])
    cfg = replayed[end + 1:end + 1 + size]
    at = end + 1 + size
    assert replayed[at:at + 4] == b"dat ", replayed[at:at + 20]
    end = replayed.index(b"\n", at)
    size = int(replayed[at + 4:end])
    wanted.append((cfg, replayed[end + 1:end + 1 + size]))
    at = end + size
names = sorted(it[:-4] for it in os.listdir(folder) if it.endswith(".cfg"))
found = [tuple(open(f"{folder}/{name}{kind}", "rb").read() for kind in (".cfg", ".dat")) for name in names]
print(len(wanted), "records by replay;", "the same" if found == wanted else f"{len(found)} others")
END
