# a fault of the set-up comes before rules after `go` that don't fit
. files/live.bash
{ head -n 3 dfr/replay/first/in; printf '%s\n' 'freq 50' 'rate 0' 'start 0' 'limits 2,2,6,1' go 'rules edge 0 rise'; } | "$dfr" live /dev/stdin "$folder"
