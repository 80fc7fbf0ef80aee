# a lenient configuration beside binary data: as many bytes as it wants, one less, ten more, and where it names the most rows
folder=$(mktemp -d)
trap 'rm -r "$folder"' EXIT
"$dfr" read files/lenient.cfg files/binary.dat
echo "$?"
head -c 49 files/binary.dat > "$folder/49"
"$dfr" read files/lenient.cfg "$folder/49"
echo "$?"
{ cat files/binary.dat; head -c 10 files/binary.dat; } > "$folder/60"
"$dfr" read files/lenient.cfg "$folder/60"
echo "$?"
sed 's/^1000,5$/1000,9999999999/' files/lenient.cfg > "$folder/most"
"$dfr" read "$folder/most" files/binary.dat
echo "$?"
