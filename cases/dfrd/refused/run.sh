# usage errors; no set-up file, and its errors; no folder, a file in its place, a folder that can't be written
. files/dfrd.bash
try() { "$dfrd" "$@" < /dev/null 2>&1 | sed "s|$work|WORK|g" | head -1; echo "${PIPESTATUS[0]}"; }
setup() { printf 'station S\ndevice D\nanalog A,,,A,1,0,0,-100,100,1,1,P\nfreq 50\n%s\nlimits 1,1,3,1\n' "$1" > "$work/setup"; }
try --keep 0 dfr/replay/first/in "$folder"
try --keep 1 --keep-bytes 1 dfr/replay/first/in "$folder"
try --start soon dfr/replay/first/in "$folder"
try "$work/none" "$folder"
setup 'rate 1000,1'
try "$work/setup" "$folder"
setup 'rate x'
try "$work/setup" "$folder"
setup 'rat 1000'
try "$work/setup" "$folder"
setup ''
try "$work/setup" "$folder"
setup 'rate 0'
try "$work/setup" "$folder"
setup 'rate 1000'
echo 'rules level 1 over 1' >> "$work/setup"
try "$work/setup" "$folder"
try dfr/replay/first/in "$work/none"
try dfr/replay/first/in dfr/replay/first/in
try dfr/replay/first/in /sys
