# the commands of the example's README as they stand there, in a copy of the examples without what they make
command -v python3 > /dev/null || exec cat examples/earth-fault/out # skipped: its check is written in Python
folder=$(mktemp -d)
trap 'rm -r "$folder"' EXIT
cp -r ../examples "$folder/examples"
mkdir "$folder/bin"
ln -s "$dfr" "$folder/bin/dfr"
ln -s "$comtrade" "$folder/bin/comtrade"
export PATH="$folder/bin:$PATH"
example=$PWD/../examples/earth-fault
cd "$folder/examples/earth-fault" || exit 1
rm printed record.svg
sed -n 's/^    //p' README.md > "$folder/commands"
bash -e "$folder/commands" 2>&1
echo "status $?"
for name in printed record.svg; do cmp $name "$example/$name" && echo "$name same"; done
for name in rec1.cfg rec1.dat; do cmp records/$name "$example/$name" && echo "$name same"; done
