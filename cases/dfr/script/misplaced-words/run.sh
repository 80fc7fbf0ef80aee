# the first script with one line replaced by one that may not stand there: line, text, what is printed, status
tried() {
    got=$({ head -n "$(($1 - 1))" dfr/replay/first/in; printf '%s\n' "$2"; tail -n "+$(($1 + 1))" dfr/replay/first/in; } | "$dfr"; echo "$?")
    echo "$1 | $2 | ${got//$'\n'/ | }"
}
tried 1 'scan 1/'
tried 1 'trigger'
tried 1 'take'
tried 1 'Station Bay 1'
tried 1 'station,Bay 1'
tried 2 'station Bay 2'
tried 7 'go x'
tried 9 'go'
tried 9 'station Bay 1'
tried 9 'analog IA,A,,A,1,0,0,-32767,32767,1,1,P'
tried 9 'limits 2,2,6,1'
tried 9 ' # note'
tried 9 'scan1/'
tried 9 'trigger x'
tried 9 'triggers'
# two lines of rules before go
got=$({ head -n 7 dfr/replay/first/in; echo 'rules'; echo 'rules'; tail -n +8 dfr/replay/first/in; } | "$dfr"; echo "$?")
echo "rules twice | ${got//$'\n'/ | }"
