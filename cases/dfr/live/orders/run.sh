# orders are made at the number of `scan` lines before them, refused scans among these; a trigger after the last one too
. files/live.bash
{
    head -n 6 dfr/replay/first/in
    printf '%s\n' 'limits 1,2,6,9' go trigger 'scan 1/' 'scan 1,2/' trigger 'scan 2/' trigger 'scan 32768/' 'scan 3/' take
    printf '%s\n' 'rules level 0 over 50' 'scan 4/' 'scan 60/' 'scan 5/' 'rules' 'rules level 0 under -1' 'scan 60/' trigger
} > "$folder/script"
"$dfr" live "$folder/script" "$folder"
cat "$folder/rec1.dat" "$folder/rec2.dat" | tr -d "\r" | tr "\032" "."
