# a set-up with thirty rules and a few more: the last ones, what is printed, status
thirty=$(printf 'level 0 over 1000;%.0s' {1..30})
tried() {
    got=$({ head -n 7 dfr/replay/first/in; echo "rules $thirty$1"; echo 'go'; echo 'scan 1/'; } | "$dfr"; echo "$?")
    echo "$1 | ${got//$'\n'/ | }"
}
tried 'level 0 over 1;level 0 over 0'
tried 'level 0 over 1;level 0 over 0;level 0 over 0'
tried 'level 0 over 1;edge 0 rise;level 0 over 0'
tried 'level 0 over 1;level 1 over 0'
