# an operator's rules are kept in the file of the set-up's rules, and hold after a restart; those of the converter are not
. files/dfrd.bash
rules=$work/bay.rules
printf '%s\n' 'station S' 'device D' 'analog IA,A,,A,1,0,0,-1000,1000,1,1,P' 'status B,,,0' 'freq 50' 'rate 1000' 'limits 1,1,3,4' 'rules @bay.rules' > "$work/setup"
printf '# mine\nlevel 0 over 500\n' > "$rules"
mkfifo "$work/orders" "$work/scans"
begin() { # begin NAME: starts a recording; 3 is its input
    : > "$work/told"
    "$dfrd" --quiet --start "$1" --orders "$work/orders" "$work/setup" "$folder" < "$work/scans" > "$work/told" 2> "$work/err" &
    exec 3> "$work/scans"
    echo 'scan 1/0' >&3
    until_told "$work/told" ' start'
    sleep 0.5
}
order() { # order LINE ANSWER
    echo "$1" > "$work/orders"
    until_told "$work/told" "$2"
}
kept() { # kept LINE: waits until the file has it, and shows the file
    until_told "$rules" "$1"
    cat "$rules"
}
end() {
    exec 3>&-
    wait
    told < "$work/told"
    sed "s|$work|WORK|" "$work/err"
    echo "-- $(cd "$work" && echo bay*)"
}
echo "== set by an operator"
begin 0
echo 'rules level 0 over 7' >&3 # by the converter
until_told "$work/told" 'input at'
order 'rules level 1 over 3' 'no-channel'
order 'rules nonsense' 'number'
sleep 0.3
cat "$rules"
order 'rules level 0 over 300; edge 0 rise ' 'operator at'
kept 'edge 0 rise'
for scan in 1/0 299/0 1/0 300/0 1/0 1/1 1/1 1/1; do echo "scan $scan" >&3; done
until_told "$work/told" 'record 2'
end
echo "== after a restart"
begin 1000000
for scan in 1/0 299/0 1/0 300/0 1/0 1/1 1/1 1/1; do echo "scan $scan" >&3; done
until_told "$work/told" 'record 2'
echo "== no rules"
order 'rules' 'operator at'
until_told "$rules" '^$'
cat "$rules"
end
echo "== the last order before the end"
begin 2000000
printf 'rules level 0 over 5\nrules level 0 over 6\nstop\n' > "$work/orders"
wait
end
cat "$rules"
echo "== can't be written"
mkdir "$rules.part"
begin 3000000
order 'rules edge 0 fall' 'operator at'
until_told "$work/err" 'written'
order 'rules edge 0 rise' 'operator at.*'
sleep 1.5
cat "$rules"
rmdir "$rules.part"
kept 'edge 0 rise'
end
