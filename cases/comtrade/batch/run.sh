# check, measure, plot and page of many records print of each what they print of it alone: names, folders, folders within folders; order;
# records that cannot be read; two names that are the files of one record; files of pictures, also of records of one name
exec 2>&1
folder=$(mktemp -d)
trap 'rm -r "$folder"' EXIT
files=$PWD/files
mkdir -p "$folder/storm/north" "$folder/storm/south"
cp files/first.cfg files/first.dat "$folder/storm"
for at in north south; do
    cp ../examples/earth-fault/rec1.cfg ../examples/earth-fault/rec1.dat "$folder/storm/$at"
done
cd "$folder" || exit 1
sed -i 's|01/07/2024,10:30|01/07/2024,09:30|' storm/south/rec1.cfg
printf 'x' > storm/broken.cfg
printf 'x' > storm/broken.dat
same() { # same WHAT: whether the files wanted and got are equal
    cmp wanted got && echo "$1: the same"
}
# check: in the order of the names, with a count below; the error of a record is on standard output, as alone
for name in storm/broken storm/first storm/north/rec1 storm/south/rec1; do
    "$comtrade" check $name.cfg
done > wanted
echo '4 records, 1 with an error' >> wanted
"$comtrade" check -r storm > got
echo "status $?"
same 'check -r'
"$comtrade" check storm/north/rec1 storm/first
echo "status $?"
"$comtrade" check storm/first nowhere storm/first.cfg
echo "status $?"
for name in storm/north/rec1 storm/south/rec1; do
    "$comtrade" check --json $name | sed "s|^{|{\"record\":\"$name\",|"
done > wanted
"$comtrade" check --json storm/north/rec1 storm/south/rec1 > got
same 'check --json'
"$comtrade" check --json storm/first nowhere storm/first.dat
echo "status $?"
mkdir none
"$comtrade" check none
echo "status $?"
# measure: by trigger; south's is an hour before north's
for name in storm/south/rec1.cfg storm/north/rec1.cfg; do
    echo "$name:"
    "$comtrade" measure --at 20 $name
    echo
done > wanted
echo '2 records, 0 with errors' >> wanted
"$comtrade" measure --at 20 storm/north storm/south > got
echo "status $?"
same 'measure --at'
for name in storm/south/rec1.cfg storm/north/rec1.cfg; do
    "$comtrade" measure --json $name | sed "s|^{|{\"record\":\"$name\",|"
done > wanted
"$comtrade" measure --json --recursive storm > got
echo "status $?"
grep -v '"fault":' got | grep -v storm/first > rest
mv rest got
same 'measure --json'
"$comtrade" measure --json -r --at 20 storm | grep '"fault":'
"$comtrade" measure --channels IA --at 20 storm/north/rec1 storm/first | grep '^storm\|^2 records'
echo "status ${PIPESTATUS[0]}"
"$comtrade" measure --at 20 --from 0 storm/north storm/south
echo "status $?"
"$comtrade" measure --frequency none storm/north storm/south
echo "status $?"
# two names of one record, and of two
"$comtrade" check storm/first.cfg storm/north/rec1.dat
"$comtrade" check storm/first.dat storm/first.cfg | tail -n 1
cp storm/first.cfg one; cp storm/first.dat other
"$comtrade" check one other
"$comtrade" check storm/first.cfg storm/north/rec1.cfg
"$comtrade" check - storm/first.dat < storm/first.cfg
"$comtrade" check - -
echo "status $?"
# plot and page: a file for each; the folders' names where two records have the same name
"$comtrade" plot -r storm -o pictures
echo "status $?"
"$comtrade" plot storm/first > wanted
cp pictures/first.svg got
same 'plot -r'
"$comtrade" plot storm/south/rec1 > wanted
cp pictures/storm-south-rec1.svg got
same 'plot -r, of two with one name'
ls pictures
"$comtrade" page --recursive storm/north storm/first -o made/pages
echo "status $?"
"$comtrade" page storm/first > wanted
cp made/pages/first.html got
same 'page -r'
"$comtrade" page storm/north storm/first --output made/pages
echo "status $?"
"$comtrade" plot storm/north storm/first
echo "status $?"
"$comtrade" plot storm/north
echo "status $?"
"$comtrade" plot --width none storm/north -o not/made
echo "status $?"
ls not 2> /dev/null || echo "no folder is made"
# -o of texts: all in one file, also where one cannot be read
"$comtrade" check storm/first nowhere -o verdicts
echo "status $?"
cat verdicts
