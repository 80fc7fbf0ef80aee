# the first loss is told at once, those of the next second together, also while the input is silent
. files/dfrd.bash
mkfifo "$work/scans"
"$dfrd" --quiet --start 0 dfr/replay/first/in "$folder" < "$work/scans" > "$work/told" &
exec 3> "$work/scans"
printf 'scan 1/\nlost\n' >&3
until_told "$work/told" 'lost 1'
for _ in 1 2 3; do echo lost >&3; sleep 0.1; done
sleep 2
told < "$work/told"
exec 3>&-
wait
