# a script of as many bytes as are read
. files/live.bash
{ head -n 8 dfr/replay/first/in; echo "scan 1/"; yes "#"; } | head -c 16777216 > "$folder/script"
"$dfr" live "$folder/script" "$folder"
