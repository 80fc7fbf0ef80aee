# install: what is put below a folder, that it runs, DESTDIR, uninstalling, and usage errors
exec 2>&1
folder=$(mktemp -d)
trap 'rm -rf "$folder"' EXIT
unset DESTDIR
shown() { sed "s|$folder|FOLDER|"; }

../install "$folder/place" | shown
(cd "$folder/place" && find . -type f ! -path '*/doc/dfr/docs/*' ! -path '*/doc/dfr/examples/*' | LC_ALL=C sort)
for page in README.md LICENSE-MIT LICENSE-APACHE docs/dfrd.md docs/INSTALL.md examples/relays/single.cff; do
    cmp "../$page" "$folder/place/share/doc/dfr/$page"
done
for program in dfr dfrd comtrade; do
    cmp ../crates/$program/out/$program "$folder/place/bin/$program"
    cmp ../docs/man/$program.1 "$folder/place/share/man/man1/$program.1"
done
"$folder/place/bin/comtrade" --version | cut -d' ' -f1

echo "== a file of somebody else stays, and its folder"
echo mine > "$folder/place/bin/mine"
../install "$folder/place" > "$folder/said" # again, over what is there
../install --uninstall "$folder/place" | shown
(cd "$folder/place" && find . | LC_ALL=C sort)

echo "== a folder that was there stays, one that was made goes"
mkdir -p "$folder/kept/bin"
here=$PWD
(cd "$folder" && "$here/../install" kept && "$here/../install" --uninstall kept) | shown
find "$folder/kept" | shown
../install "$folder/made" > "$folder/said" && ../install --uninstall "$folder/made" | shown
[ ! -e "$folder/made" ] && echo "gone"

echo "== DESTDIR"
DESTDIR=$folder/stage ../install /usr/local
[ -x "$folder/stage/usr/local/bin/dfrd" ] && echo "staged"
DESTDIR=$folder/stage ../install --uninstall /usr/local
find "$folder/stage" -type f

echo "== usage"
../install --help
echo "status $?"
cd "$folder" || exit 1
for words in "" "--hlep" "a b" "--uninstall" "--uninstall --help"; do
    # shellcheck disable=SC2086
    "$here/../install" $words > said
    echo "status $?"
done 2>&1 | grep -v '^ \|^$\|^[Ipa]'
"$here/../install" --uninstall "$folder/nowhere" 2>&1 | shown
find . -type d | LC_ALL=C sort
