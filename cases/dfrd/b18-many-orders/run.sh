# an operator's trigger after 2,000 comments is answered within six seconds
. files/dfrd.bash
mkfifo "$work/orders" "$work/scans"
"$dfrd" --quiet --start 0 --orders "$work/orders" dfr/replay/first/in "$folder" < "$work/scans" > "$work/told" &
exec 3> "$work/scans"
echo 'scan 1/' >&3
until_told "$work/told" 'start'
{ yes '#' | head -2000; echo trigger; } > "$work/orders"
for _ in $(seq 120); do grep -q 'operator at' "$work/told" && break; sleep 0.05; done
told < "$work/told"
exec 3>&-
wait
