# without a record the folder isn't looked at; an open record isn't written
. files/live.bash
{ head -n 12 dfr/replay/first/in; echo trigger; } | "$dfr" live /dev/stdin "$folder/none"
