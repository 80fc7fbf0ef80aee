# a converter that tells the time, at a thousand scans a second; the instants are counted by hand
. files/dfrd.bash
sed 's/^limits .*/limits 2,2,6,8/' dfr/replay/first/in > "$work/setup"
scans() { for _ in $(seq "$1"); do echo scan 1/; done; }
telling() {
    # scan 0 is at 10:30:00; the trigger is at scan 3
    echo time 1719829800000000; scans 4; echo trigger; scans 2
    # scan 6 was due 6 ms later, and the next one is at 10:30:01: 994 scans are missing, and it is scan 1000
    echo time 1719829801000000; scans 4; echo trigger; scans 2
    # scan 1006 was due at 01.006, and is at 00.500
    echo time 1719829800500000; scans 4; echo trigger; scans 2
    # no instants; the last one is of the year 10000
    printf 'time %s\n' now -1 '' 253402300800000000
    # scan 1012 was due at 00.506000, and is 40 microseconds later
    echo time 1719829800506040; scans 3; echo trigger; scans 2
}
telling | "$dfrd" --quiet "$work/setup" "$folder" | told | grep -v '^start' |
    sed 's/clock set -[0-9]\{6,\}\..*/clock set to the past/' | sort
names
sed -n '/^01/p' "$folder"/*-4.cfg | tr -d '\r'
# with --time rate, no line dates a scan
rm "$folder"/*
telling | "$dfrd" --quiet --start 0 --time rate "$work/setup" "$folder" | told | grep -v ^input | sort
