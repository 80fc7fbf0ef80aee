# a script that isn't there
. files/live.bash
"$dfr" live "$folder/none" "$folder"
