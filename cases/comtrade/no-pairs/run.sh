# a folder without a record: list and events say so
exec 2>&1
folder=$(mktemp -d)
trap 'rm -r "$folder"' EXIT
cd "$folder" || exit 1
mkdir empty other
touch other/notes.txt other/cfg other/.cfg
for verb in list events 'list --json' 'events --json'; do
    for name in empty other 'empty other'; do
        echo "== $verb $name"
        "$comtrade" $verb $name
        echo "status $?"
    done
done
