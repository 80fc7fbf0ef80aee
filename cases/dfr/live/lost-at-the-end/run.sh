# lost scans after the last scan are in no list: an order after them is made at the end, and their record stays open
. files/live.bash
{ head -n 14 dfr/replay/first/in; printf '%s\n' lost lost trigger; } | "$dfr" live /dev/stdin "$folder"
names
