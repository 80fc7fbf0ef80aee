# Sourced by the scripts of this folder: the version, the date of all files, and steps that several
# scripts share. Everything that these make has the same bytes on each run.
top=$(cd "$(dirname "${BASH_SOURCE[0]}")/.." && pwd)
export LC_ALL=C TZ=UTC
umask 022
version=$(cat "$top/VERSION")
released=$(sed -n "s/^## \[$version\] - //p" "$top/CHANGELOG.md")
if [ -z "$released" ]; then
    echo "packaging: CHANGELOG.md has no line '## [$version] - DATE'" >&2
    exit 1
fi
export SOURCE_DATE_EPOCH=${SOURCE_DATE_EPOCH:-$(date -d "$released" +%s)}

fail() {
    echo "${0##*/}: $*" >&2
    exit 1
}

# need TOOL PACKAGE: ends if a tool is missing, and names the package of Debian that has it
need() { command -v "$1" > /dev/null || fail "no $1: apt install $2"; }

# program NAME: where this program is, in $PROGRAMS or as it was built
program() {
    local path=$top/crates/$1/out/$1
    [ -z "${PROGRAMS-}" ] || path=$PROGRAMS/$1
    [ -x "$path" ] || fail "no $path: run the gate, or (cd crates/$1 && rt run -- --version)"
    echo "$path"
}

# core_library: the proved part of the C library: what `rt lib` made, else what the gate kept
core_library() {
    local path=$top/crates/comtrade_c/out/libcomtrade_c.a kit sum
    if [ ! -f "$path" ] && command -v rt > /dev/null && sum=$("$top/bench/guards" --sum comtrade_c)
    then
        kit=$(dirname "$(dirname "$(readlink -f "$(command -v rt)")")")
        path=$(dirname "$kit")/rattle-kept/guards/libcomtrade_c-$sum.a
    fi
    [ -f "$path" ] || fail "no $path: run the gate, or (cd crates/comtrade_c && rt lib)"
    echo "$path"
}

# dated TREE: gives all files and folders the date of the release
dated() { find "$1" -exec touch -h -d "@$SOURCE_DATE_EPOCH" {} +; }

# archive FOLDER FILE: a tar archive of this folder, with its name
archive() {
    tar -C "$(dirname "$1")" --sort=name --format=gnu --owner=0 --group=0 --numeric-owner \
        --mode=u=rwX,go=rX --mtime="@$SOURCE_DATE_EPOCH" -c "$(basename "$1")" | gzip -9n > "$2"
}

# changes: the section of CHANGELOG.md on this version
changes() {
    awk -v head="## [$version]" 'index($0, head) == 1 { on = 1; next } /^## \[/ { on = 0 } on' \
        "$top/CHANGELOG.md"
}
