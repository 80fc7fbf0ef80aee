# a script of one byte more than is read
. files/live.bash
yes "#" | head -c 16777217 > "$folder/script"
"$dfr" live "$folder/script" "$folder"
