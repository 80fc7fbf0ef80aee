# the first script with a station and a device without a name, and with no rules on a line of their own
sed '1s/.*/station/;2s/.*/device/' dfr/replay/first/in | "$dfr" | cmp - <(sed 's/^cfg 142$/cfg 134/;s/^Bay 1,DFR,1999/,,1999/' dfr/replay/first/out) && echo same
sed '7a rules' dfr/replay/first/in | "$dfr" | cmp - dfr/replay/first/out && echo same
