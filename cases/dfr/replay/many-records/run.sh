# 140,000 scans and 353 records: 64 wait and a trigger meets the full shelf, by hand and by a rule; they are taken; more follow by a rule
. files/replayed.bash
script() {
    head -n 6 dfr/replay/first/in
    printf '%s\n' 'limits 3,5,12,64' go
    awk 'function many(count, line) { while (count-- > 0) print line }
    BEGIN {
        for (k = 0; k < 140000; k++) {
            fires = k % 250 == 7 && k > 64200
            print "scan " (k % 97 == 0 ? "*" : fires ? 9000 + k % 1000 : k * 7919 % 18001 - 9001) "/"
            at = k % 1000
            if (k < 64000 && (at == 500 || at == 504 && k % 3000 < 2000 || at == 508 && k % 3000 < 1000)) print "trigger"
            if (k == 64200) print "trigger\nrules level 0 over 9000"
            if (k == 64300) { many(65, "take"); print "trigger" }
            if (k > 65000 && k % 500 == 499) many(2, "take")
            if (k % 1001 == 1000) print "scan 1,2/\nscan 32768/"
            if (k == 100001) print "trigger\ntrigger\ntake\nrules level 0 over 9100"
        }
        many(3, "take")
    }'
}
script | replayed ascii
script | replayed binary
