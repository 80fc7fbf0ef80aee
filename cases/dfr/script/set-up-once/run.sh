# the first script with a line of its set-up twice, and without it: what was done, what is printed, status
tried() {
    got=$("$dfr"; echo "$?")
    echo "$1 | ${got//$'\n'/ | }"
}
for line in 1 2 4 5 6 7; do
    word=$(sed -n "${line}s/ .*//p" dfr/replay/first/in)
    { head -n 7 dfr/replay/first/in; sed -n "${line}p" dfr/replay/first/in; tail -n +8 dfr/replay/first/in; } | tried "$word twice"
    sed "${line}d" dfr/replay/first/in | tried "no $word"
done
