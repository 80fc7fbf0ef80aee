# an operator at a FIFO, whose writers come and go; nonsense is refused
. files/dfrd.bash
mkfifo "$work/orders" "$work/scans"
"$dfrd" --quiet --start 0 --orders "$work/orders" dfr/replay/first/in "$folder" < "$work/scans" > "$work/told" &
exec 3> "$work/scans"
for i in 1 2 3 4; do echo "scan $i/" >&3; done
until_told "$work/told" 'start'
sleep 0.5
echo trigger > "$work/orders"
until_told "$work/told" 'operator at'
echo 'rules level 0 over 100' > "$work/orders"
until_told "$work/told" 'rules set'
printf 'scan 1/\nrubbish\nrules level 3 over 1\n' > "$work/orders"
until_told "$work/told" 'no-channel'
for i in 5 6; do echo "scan $i/" >&3; done
until_told "$work/told" 'record 1'
for i in 7 101 8 9 10; do echo "scan $i/" >&3; done
exec 3>&-
wait
told < "$work/told"
