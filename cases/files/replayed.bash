# `replayed KIND`: replays the script on standard input and compares all that is printed with what expected.awk works out; prints
# KIND, the status, the number of lines, and "same" or the first difference. Sourced by cases.
export LC_ALL=C
folder=$(mktemp -d)
trap 'rm -r "$folder"' EXIT
replayed() {
    cat > "$folder/script"
    awk -v kind="${1^^}" -f files/expected.awk "$folder/script" > "$folder/expected"
    "$dfr" replay --kind "$1" < "$folder/script" > "$folder/printed"
    echo "$1 $? $(wc -l < "$folder/printed") $(cd "$folder" && cmp printed expected 2>&1 && echo same)"
}
