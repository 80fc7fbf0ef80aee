# at most two records for each hour of UTC: each further one is named, with its reason; the next hour has its own; the one that is open
# at the end is over the limit as well
. files/dfrd.bash
printf 'station S\ndevice D\nanalog A,,,A,1,0,0,-100,100,1,1,P\nfreq 50\nrate 1000\nlimits 1,1,3,9\n' > "$work/setup"
for record in 1 2 3 4 5 6 7; do
    printf 'scan 1/\nscan 2/\nscan 3/\ntrigger\n'
done | "$dfrd" --quiet --journal --start 3599990000 --most 2 --health "$work/prom" "$work/setup" "$folder" > "$work/told"
echo "status ${PIPESTATUS[1]}"
sed 's/^\(<[0-9]>\)[^ ]* /\1 /; s/ clock [-+0-9.]*//' "$work/told" | grep ' record \| unwritten \| trouble \| end '
names
grep '^dfrd_unwritten\|^dfrd_records' "$work/prom"
for most in 0 few; do
    "$dfrd" --most "$most" "$work/setup" "$folder" < /dev/null 2>&1
    echo "status $?"
done
