# helps the cases of `dfr live`: a folder of their own, gone in the end, and what is in it
folder=$(mktemp -d)
trap 'rm -rf "$folder"' EXIT
names() { (cd "$folder" && printf '%s\n' *); }
