# the operator's file is cut, then another file gets its name; a FIFO is made anew; a folder is refused
. files/dfrd.bash
begin() {
    rm -f "$work/scans" "$work/told"
    mkfifo "$work/scans"
    "$dfrd" --quiet --start 0 --orders "$work/orders" dfr/replay/first/in "$folder" < "$work/scans" > "$work/told" 2> "$work/err" &
    exec 3> "$work/scans"
    echo 'scan 1/' >&3
    until_told "$work/told" 'start'
    sleep 0.3
}
answers() { for _ in $(seq 400); do [ "$(grep -c 'operator at' "$work/told")" = "$1" ] && return; sleep 0.02; done; echo "not $1 answers"; }
end() { exec 3>&-; wait $!; echo "$?"; cut -d' ' -f2- "$work/told" | grep operator; cat "$work/err"; }
printf 'trigger\ntrigger\n' > "$work/orders"
begin
: > "$work/orders"
sleep 0.3
echo trigger >> "$work/orders"
answers 1
mv "$work/orders" "$work/orders.1"
sleep 0.2
printf 'trigger\ntrigger\ntrigger\n' > "$work/orders"
answers 4
end
rm "$work/orders"
mkfifo "$work/orders"
begin
echo trigger > "$work/orders"
answers 1
rm "$work/orders"
mkfifo "$work/orders"
timeout 3 bash -c "echo trigger > '$work/orders'" || echo 'nobody hears it'
answers 2
end
"$dfrd" --quiet --orders "$folder" dfr/replay/first/in "$folder" < /dev/null 2>&1 | sed "s|$work|WORK|"
