# names of files that are not UTF-8: list and events report them and end with status 1; an argument that is not UTF-8 is named, whatever
# the command, and nothing is read or written; links, the shell's own files and its folder let such files be read
exec 2>&1
folder=$(mktemp -d)
trap 'rm -r "$folder"' EXIT
cd "$folder" || exit 1
mkdir storm bytes
odd=$(printf 'St\xf6rung')
cp "$OLDPWD/files/first.cfg" storm/a.cfg
cp "$OLDPWD/files/first.dat" storm/a.dat
for name in "storm/$odd" "bytes/$odd"; do
    cp storm/a.cfg "$name.CFG"
    cp storm/a.dat "$name.DAT"
done
touch "storm/$(printf '\xe9\xba\xa3\xb1').cff" "storm/$odd.txt" "storm/$odd"
for verb in list events 'list --json' 'events --json'; do
    for name in storm bytes; do
        echo "== $verb $name"
        "$comtrade" $verb $name
        echo "status $?"
    done
done
"$comtrade" show "storm/$odd.CFG"
echo "status $?"
"$comtrade" compare storm/a "storm/$odd"
echo "status $?"
# other files of such names do not hide a partner
cp storm/a.cfg storm/b.cfg
cp storm/a.dat storm/B.DAT
"$comtrade" check storm/b
# each command refuses such an argument: as the name of a pair, of a data file, of a new pair, of a folder
refused() {
    "$comtrade" "$@"
    echo "$1: status $?"
}
echo '== refused'
for verb in list events show check measure csv plot page; do
    refused $verb "storm/$odd.CFG"
done
refused show storm/a.cfg "storm/$odd.DAT"
refused convert --kind binary "storm/$odd" new
refused convert --kind binary storm/a "new/$odd"
refused import "storm/$odd" new
refused import storm/a "$odd"
refused extract "new/$odd" < /dev/null
refused show --channels "$odd" storm/a
ls
# ways to read them
echo '== read'
"$comtrade" check /dev/fd/3 /dev/fd/4 3< "storm/$odd.CFG" 4< "storm/$odd.DAT"
"$comtrade" check - "storm/a.dat" < "storm/$odd.CFG"
mkdir links "$odd"
ln -s "../storm/$odd.CFG" links/a.cfg
ln -s "../storm/$odd.DAT" links/a.dat
"$comtrade" check links/a
cp storm/a.* "$odd"
(cd "$odd" && "$comtrade" check a)
