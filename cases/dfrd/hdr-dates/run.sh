# what a header says of its record's instants: before the converter told the time they are those of the machine's clock. The files stand by
# their dates, and the converter's is an old one
. files/dfrd.bash
sed 's/^limits .*/limits 2,2,6,8/' dfr/replay/first/in > "$work/setup"
scans() { for _ in $(seq "$1"); do echo scan 1/; done; }
record() { scans 4; echo trigger; scans 2; }
instants() { sed -n 's/\r$//; /^Instants/p' "$folder"/*.hdr; rm "$folder"/*; }
{ record; echo time 1719829800000000; record; } > "$work/lines"
"$dfrd" --quiet --hdr --time clock "$work/setup" "$folder" < "$work/lines" > "$work/told"; instants
"$dfrd" --quiet --hdr --time rate "$work/setup" "$folder" < "$work/lines" > "$work/told"; instants
