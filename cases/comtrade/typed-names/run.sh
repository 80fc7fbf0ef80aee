# an error names the file that was typed; in a folder without records there are none; a description (.hdr, .inf) finds its pair
exec 2>&1
folder=$(mktemp -d)
trap 'rm -r "$folder"' EXIT
cp files/first.cfg "$folder/rec1.cfg"
cp files/first.dat "$folder/rec1.dat"
cp files/first.cfg "$folder/alone.cfg"
cp files/first.dat "$folder/only.dat"
cd "$folder" || exit 1
touch rec1.hdr rec1.INF alone.hdr
mkdir storm folder.cfg
for name in nosuch.cfg nosuch.dat nosuch.cff nosuch.hdr storm/nosuch.cfg nosuch storm storm/ folder.cfg \
    rec1.hdr rec1.INF alone.cfg alone.hdr only.dat; do
    echo "== $name"
    "$comtrade" check "$name"
    echo "status $?"
done
# commands over one record say that a folder is none
for name in storm storm/ folder.cfg; do
    "$comtrade" show "$name"
    echo "status $?"
done
# a pair is found before a folder of the same name
mkdir rec1
"$comtrade" check rec1
for verb in show csv plot page measure events list; do
    "$comtrade" $verb nosuch.cfg
    echo "status $?"
done
"$comtrade" compare rec1 nosuch.cfg
"$comtrade" convert --kind ascii nosuch.cfg new
echo "status $?"
