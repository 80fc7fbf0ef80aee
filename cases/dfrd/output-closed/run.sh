# standard output is closed, full, or a pipe whose reader has gone: recording goes on
. files/dfrd.bash
once() { sed '1,/^go$/d; /^take$/d' dfr/replay/first/in | "$dfrd" --quiet --start 0 dfr/replay/first/in "$folder"; }
once > /dev/full
once | true
once >&-
names
