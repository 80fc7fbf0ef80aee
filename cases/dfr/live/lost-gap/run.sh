# a lost scan in a record: its reading is missing, and the scans after it keep their instants
. files/live.bash
sed 's:^scan 12/$:lost:' dfr/replay/first/in | "$dfr" live /dev/stdin "$folder"
cat "$folder/rec1.dat" | tr -d '\032'
