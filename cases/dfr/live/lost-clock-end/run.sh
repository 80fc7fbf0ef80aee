# a lost scan closes a record; the next one is after the year 9999, as is the scan after it
. files/live.bash
{ head -n 4 dfr/replay/first/in; printf '%s\n' 'rate 1' 'start 253402300798999999' 'limits 0,1,2,1' go 'scan 1/' trigger lost lost 'scan 3/'; } | "$dfr" live /dev/stdin "$folder"
cat "$folder/rec1.dat" | tr -d '\032'
