# one version: the programs', the C header's, the packages' and the newest in the list of changes are that of the file VERSION, and the
# logic that the programs name is that of the toolchain that is here
version=$(cat ../VERSION)
same() { # same NAME FOUND
    if [ "$2" = "$version" ]; then echo "$1"; else echo "$1: $2, not $version"; fi
}
for program in comtrade dfrd; do
    said=$("${!program}" --version)
    [ "$said" = "$program $version (Rattle $(rt version | sed 's/^[^ ]* //'))" ] && echo "$program" || echo "$said"
done
same comtrade.h "$(sed -n 's/^#define COMTRADE_VERSION \([0-9]*\)\([0-9][0-9]\)\([0-9][0-9]\)$/\1 \2 \3/p' ../examples/embedding/comtrade.h | awk '{ print $1 + 0 "." $2 + 0 "." $3 + 0 }')"
same pyproject.toml "$(sed -n 's/^version = "\(.*\)"$/\1/p' ../python/pyproject.toml)"
same __init__.py "$(sed -n 's/^__version__ = "\(.*\)"$/\1/p' ../python/dfr_comtrade/__init__.py)"
for manifest in ../examples/embedding/rust/*/Cargo.toml; do
    same "${manifest#../examples/embedding/}" "$(sed -n '1,/^\[dep/s/^version = "\(.*\)"$/\1/p' "$manifest")"
done
same CHANGELOG.md "$(sed -n 's/^## \[\([0-9.]*\)\].*/\1/p' ../CHANGELOG.md | head -n 1)"
same README.md "$(sed -n 's/^Version \([0-9.]*[0-9]\).*/\1/p' ../README.md)"
