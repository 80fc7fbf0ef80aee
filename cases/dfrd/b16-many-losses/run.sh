# 66,000 losses in a row: an open record is closed and written before a scan follows; the places stay true, and the bits those of the
# scan before
. files/dfrd.bash
printf 'station S\ndevice D\nanalog A,,,A,1,0,0,-100,100,1,1,P\nstatus S,,,0\nfreq 50\nrate 1000\nlimits 1,2,4,1\nrules level 0 over 50;edge 0 fall\n' > "$work/setup"
mkfifo "$work/scans"
once() { # what comes before the losses, they, what comes after, an option
    "$dfrd" --quiet --start 0 $4 "$work/setup" "$folder" < "$work/scans" > "$work/told" &
    exec 3> "$work/scans"
    $1 >&3
    $2 66000 >&3
    until_told "$work/told" 'record 1'
    $3 >&3
    exec 3>&-
    wait
    grep -v ' lost [0-9]* from' "$work/told" | told
    for file in "$folder"/*.dat; do tr -d '\r\032' < "$file"; done
    rm "$folder"/*
}
before() { printf 'scan 1/0\nscan 60/1\n'; }
losses() { yes lost | head -"$1"; }
after() { printf 'scan 3/1\nscan 4/0\nscan 5/0\nscan 6/0\n'; }
once before losses after
frames_before() { printf '1 0\n60 1\n' | frames; }
frames_lost() { python3 -c 'import sys; sys.stdout.buffer.write(b"\xff\x00\x00\x00" * int(sys.argv[1]))' "$1"; }
frames_after() { printf '3 1\n4 0\n5 0\n6 0\n' | frames; }
once frames_before frames_lost frames_after --raw
