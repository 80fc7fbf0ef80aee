# A script whose record has 1,000,000 scans, 100,000 of them before its trigger. Sourced by cases.
most_scans() {
    head -n 6 dfr/replay/first/in
    printf '%s\n' 'limits 100000,899999,1000000,64' go
    awk 'BEGIN { for (k = 0; k <= 1000001; k++) { print "scan " (k * k + int(k / 10)) % 10 "/"; if (k == 100002) print "trigger" } }'
    printf '%s\n' take take
}
