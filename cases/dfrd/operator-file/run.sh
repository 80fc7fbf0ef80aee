# an operator's file that grows: what stands in it when recording begins isn't carried out
. files/dfrd.bash
mkfifo "$work/scans"
printf 'trigger\ntrigger\n' > "$work/orders"
"$dfrd" --quiet --start 0 --orders "$work/orders" dfr/replay/first/in "$folder" < "$work/scans" > "$work/told" &
exec 3> "$work/scans"
for i in 1 2 3 4; do echo "scan $i/" >&3; done
until_told "$work/told" 'start'
sleep 0.5
printf 'tri' >> "$work/orders"
sleep 0.2
echo gger >> "$work/orders"
until_told "$work/told" 'operator at'
for i in 5 6; do echo "scan $i/" >&3; done
until_told "$work/told" 'record 1'
exec 3>&-
wait
told < "$work/told"
"$dfrd" --quiet --orders "$work/none" dfr/replay/first/in "$folder" < /dev/null 2>&1 | sed "s|$work|WORK|"
