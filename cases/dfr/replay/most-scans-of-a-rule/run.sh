# a record that a rule extends until it has 1,000,000 scans, with the shelf full at the next trigger
. files/replayed.bash
{
    head -n 6 dfr/replay/first/in
    printf '%s\n' 'limits 0,3,1000000,1' 'rules level 0 over 5' go
    awk 'BEGIN { for (k = 0; k <= 1000009; k++) print "scan " (k % 3 ? k % 5 : 5 + k % 5) "/" }'
    printf '%s\n' take take
} | replayed binary
