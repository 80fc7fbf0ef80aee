# no file may grow, as on a disk that is full: the changes wait, and recording goes on; those that the queue has no room for are counted in
# the file once it takes lines again
. files/dfrd.bash
printf 'station S\ndevice D\nanalog A,,,A,1,0,0,-100,100,1,1,P\nstatus Trip,,,0\nfreq 50\nrate 1000\nlimits 9,1,11,1\n' > "$work/setup"
mkfifo "$work/scans"
limited='trap "" XFSZ; echo $$ > "$3"; ulimit -S -f 0; exec "$0" --quiet --start 0 --events "$4" --chatter 1000 "$1" "$2"'
bash -c "$limited" "$dfrd" "$work/setup" "$folder" "$work/pid" "$work/events" < "$work/scans" 2> >(cat > "$work/err") | cat > "$work/told" &
exec 3> "$work/scans"
awk 'BEGIN { for (k = 0; k < 40000; k++) print "scan 1/" k % 2 }' >&3
until_told "$work/err" 'no space\|limit'
until_told "$work/err" 'changes are missing'
wc -c < "$work/events"
prlimit --pid "$(cat "$work/pid")" --fsize=unlimited
for _ in $(seq 400); do [ "$(tail -c 1 "$work/events" | wc -l)" = 1 ] && [ "$(wc -l < "$work/events")" -gt 100 ] && break; sleep 0.05; done
sleep 1
echo 'scan 1/0' >&3
echo 'scan 1/1' >&3
exec 3>&-
wait
told < "$work/told"
sed "s|$work|WORK|" "$work/err"
python3 - "$work/events" <<'P'
import sys
lines = [line.split(',') for line in open(sys.argv[1]).read().split('\n')]
print(lines[0] == 'instant,station,device,channel,id,state,is,changes,lost,scan'.split(','), lines[-1] == [''])
told = [int(f[7]) for f in lines[1:-1]]
missing = [f for f in lines[1:-1] if f[6] == 'missing']
print('all changes told or counted', sum(told) == 39999 + 2, len(missing) > 0)
P
