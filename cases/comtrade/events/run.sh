# events of the examples, against a reader of a few lines in another language where that is there; of two records merged; of one without rates
exec 2>&1
"$comtrade" events ../examples/lost-scans/rec1
"$comtrade" events ../examples/earth-fault ../examples/lost-scans/rec1.cfg | head -n 5
"$comtrade" events ../examples/embedding/none
echo "status $?"
if command -v python3 > /dev/null; then
    for stem in ../examples/earth-fault/rec1 ../examples/lost-scans/rec1; do
        "$comtrade" events $stem | tail -n +2 | sed 's/^  //; s/  */ /g' > /tmp/events.$$
        python3 files/reader.py $stem | sed 's/|/ /g; s/  */ /g' | cmp - /tmp/events.$$ && echo same
    done
    rm -f /tmp/events.$$
else
    echo same; echo same
fi
