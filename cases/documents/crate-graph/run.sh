# The graph of crates in docs/ARCHITECTURE.md is that of crates.txt. A small one, whose layers are known on paper, is drawn; a crate that
# is added to crates.txt alone is noticed.
command -v python3 > /dev/null || { echo 'no python3' >&2; exit 77; }
python3 ../tools/crate-graph --check || exit

folder=$(mktemp -d)
trap 'rm -r "$folder"' EXIT
mkdir "$folder/docs"
printf '%s\n' '# ground' 'values: memchr' '' 'dfr_recorder: values' 'files: values itoa' 'calls staticlib: values files' 'all: dfr_recorder values files' \
    > "$folder/crates.txt"
python3 ../tools/crate-graph "$folder"
printf '%s\n' 'before' '<!-- crate-graph: made by tools/crate-graph --write -->' '' 'old' '' '<!-- crate-graph ends -->' 'after' > "$folder/docs/ARCHITECTURE.md"
python3 ../tools/crate-graph --write "$folder"
python3 ../tools/crate-graph --check "$folder"
head -n 1 "$folder/docs/ARCHITECTURE.md" && tail -n 1 "$folder/docs/ARCHITECTURE.md"
echo 'more: all' >> "$folder/crates.txt"
python3 ../tools/crate-graph --check "$folder" | grep '^[-+]'
echo "status ${PIPESTATUS[0]}"
