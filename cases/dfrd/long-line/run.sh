# lines of 10 MB: a scan's is a lost scan, and so is one with an unknown word, which is skipped too
. files/dfrd.bash
long() { printf '%s' "$1"; head -c 10000000 /dev/zero | tr '\0' 1; echo; }
{ echo 'scan 1/'; long 'scan 1'; echo 'scan 2/'; long 'x'; echo 'trigger'; echo 'scan 3/'; echo 'scan 4/'; } |
    "$dfrd" --quiet --start 0 dfr/replay/first/in "$folder" | told
cat "$folder"/*.dat | tr -d "\r\032"
