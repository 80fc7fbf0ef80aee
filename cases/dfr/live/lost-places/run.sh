# lost scans count for the places of orders: a trigger between a lost scan and the scan that carries it
. files/live.bash
{ head -n 8 dfr/replay/first/in; printf '%s\n' lost 'scan 11/' lost trigger 'scan 13/' lost 'scan 15/'; } | "$dfr" live /dev/stdin "$folder"
cat "$folder/rec1.dat" | tr -d '\032'
