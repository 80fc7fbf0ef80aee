# an input that can't be read, one that is closed, and one without a scan end with status 1
. files/dfrd.bash
once() { "$dfrd" --quiet --start 0 "$@" dfr/replay/first/in "$folder" > "$work/told"; echo $?; told < "$work/told"; }
once < "$work"
once <&-
once --raw < "$work"
once < /dev/null
echo '# no scan' | once
echo 'scan 1/' | once
