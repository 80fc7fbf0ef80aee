# a file of events among records: merged by instant; chatter, lost scans, missing changes; broken lines are named; alone; as JSON
exec 2>&1
work=$(mktemp -d)
trap 'rm -rf "$work"' EXIT
cat > "$work/events" <<'END'
instant,station,device,channel,id,state,is,changes,lost,scan
2024-07-01 10:30:00.400000,Northfield 110 kV,Bay 3 DFR,9,Tap changer,1,off-normal,137,0,12
2024-07-01 10:30:00.478750,Northfield 110 kV,Bay 3 DFR,3,Late,0,normal,1,2,30
,Northfield 110 kV,Bay 3 DFR,,,,missing,12,,
2024-02-30 10:30:00.478750,S,D,3,No day,0,normal,1,2,30
2024-07-01 10:30:00.47875,S,D,3,Short,0,normal,1,2,30
2024-07-01 10:30:00.478750,S,D,3,Fields,0,normal,1,2
2024-07-01 10:30:00.478750,S,D,3,State,2,normal,1,2,30
END
printf '2024-07-01 10:3' >> "$work/events"
"$comtrade" events "$work/events" ../examples/lost-scans/rec1 2>&1 | sed "s|$work|WORK|; s/  */ /g"
echo "status ${PIPESTATUS[0]}"
head -n 2 "$work/events" > "$work/one"
"$comtrade" events "$work/one" | sed 's/  */ /g'
"$comtrade" events --json "$work/one"
printf 'instant,station\n' > "$work/other.csv"
"$comtrade" events "$work/other.csv" ../examples/lost-scans/rec1 2>&1 | sed "s|$work|WORK|; s/  */ /g" | head -n 3
echo "status ${PIPESTATUS[0]}"
