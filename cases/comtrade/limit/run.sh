# a file of more than 512 MiB is refused, whichever of both it is, and before its bytes are looked at
folder=$(mktemp -d)
trap 'rm -r "$folder"' EXIT
truncate -s 536870913 "$folder/long.cfg"
cp files/first.dat "$folder/long.dat"
cp files/first.cfg "$folder/rows.cfg"
truncate -s 536870913 "$folder/rows.dat"
for pair in long rows; do
    "$comtrade" check "$folder/$pair" 2>&1 | sed "s|$folder/||g"
    echo "status ${PIPESTATUS[0]}"
done
