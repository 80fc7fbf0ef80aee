# a scan's line whose first letters are damaged is skipped, and a lost scan; a word of a script is skipped alone
. files/dfrd.bash
{
    printf '%s\n' 'rubbish before the first scan' 'scan 1/' 'xcan 2/' ' scan 3/' 'scan4/' 'take' 'scan 5/' '' '# 6' 'go'
    printf '\0scan 6/\nscan 7/\ntrigger\nscan 8/\nscan 9/\n'
} | "$dfrd" --quiet --start 0 dfr/replay/first/in "$folder" | told
tr -d '\r\032' < "$folder"/*.dat
