# The walks of the pages on comtrade print what the pages show; the sample records are what their script writes; the page on import lists
# each key of a repair. Skipped without python3
command -v python3 > /dev/null || exec cat documents/walk-comtrade/out
exec 2>&1
export LC_ALL=C
folder=$(mktemp -d)
trap 'rm -r "$folder"' EXIT
for page in comtrade comtrade-import; do
    python3 files/walk.py ../docs/$page.md
done
python3 ../examples/relays/make.py "$folder"
for file in "$folder"/*; do
    cmp "$file" "../examples/relays/${file##*/}" && echo "${file##*/}: same"
done
sed -n 's/.*Key::[A-Za-z0-9]* => "\([a-z0-9-]*\)",$/\1/p' ../crates/comtrade_dialects/src/key_texts.rt > "$folder/keys"
while read -r key; do
    grep -q "^| \`$key\` | " ../docs/comtrade-import.md || echo "comtrade-import.md: no $key"
done < "$folder/keys"
echo "keys: $(wc -l < "$folder/keys")"
