# Each module has one line in docs/MODULES.md. In a small tree with two crates, each kind of difference is noticed.
command -v python3 > /dev/null || { echo 'no python3' >&2; exit 77; }
python3 ../tools/modules || exit

folder=$(mktemp -d)
trap 'rm -r "$folder"' EXIT
mkdir -p "$folder/docs" "$folder/crates/one/src/deep" "$folder/crates/two/src"
touch "$folder/crates/one/src/"{lib,ring,deep/inner}.rt "$folder/crates/two/src/main.rt"
printf '%s\n' '# the crates' 'one: memchr' 'two: one' > "$folder/crates.txt"
# tried TITLE LINE..: what is said of a page with these lines
tried() {
    local said status=0
    printf '%s\n' "${@:2}" > "$folder/docs/MODULES.md"
    said=$(python3 ../tools/modules "$folder") || status=$?
    echo "$1: $said status $status"
}
deep='| `deep/inner` | inner things |' lib='| `lib` | the public names |' ring='| `ring` | the last scans |' main='| `main` | the program |'
tried 'all' '## `one`' "$deep" "$lib" "$ring" '## `two`' "$main"
tried 'a module without a line' '## `one`' "$deep" "$lib" '## `two`' "$main"
tried 'a crate without a heading' '## `one`' "$deep" "$lib" "$ring"
tried 'a line without a file' '## `one`' "$deep" "$lib" "$ring" '| `shelf` | records |' '## `two`' "$main"
tried 'two lines' '## `one`' "$deep" "$lib" "$lib" "$ring" '## `two`' "$main"
tried 'another order' '## `one`' "$deep" "$ring" "$lib" '## `two`' "$main"
tried 'eleven words' '## `one`' "$deep" "$lib" "$ring" '## `two`' '| `main` | a b c d e f g h i j k |'
tried 'no word' '## `one`' "$deep" "$lib" "$ring" '## `two`' '| `main` |  |'
