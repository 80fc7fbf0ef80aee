# The packages with programs: a second run, in another place and time zone, gives the same bytes. What the deb has; its programs and
# those of the archive are the proved ones.
for tool in dpkg-deb readelf; do command -v $tool > /dev/null || { echo "no $tool" >&2; exit 77; }; done
exec 2>&1
work=$(mktemp -d)
trap 'rm -rf "$work"' EXIT
export LC_ALL=C DPKG_DEB_COMPRESSOR_LEVEL=0 # (to save time)
version=$(cat ../VERSION)
mkdir "$work/room"
../packaging/build "$work/one" dfr archive
(umask 077 && TZ=Asia/Tokyo LC_ALL=C.UTF-8 TMPDIR=$work/room ../packaging/build "$work/two" archive dfr)
for name in dfr_${version}_amd64.deb dfr-$version-linux-x86_64.tar.gz; do
    cmp "$work/one/$name" "$work/two/$name" && echo "the same bytes: ${name/$version/VERSION}"
done
dpkg-deb -I "$work/one/dfr_${version}_amd64.deb" control | sed "s/^Version: $version\$/Version: VERSION/; /^Installed-Size/d; s/(>= [0-9.]*)/(..)/g"
echo "== conffiles and scripts"
dpkg-deb -e "$work/one/dfr_${version}_amd64.deb" "$work/control"
(cd "$work/control" && cat conffiles && for name in post* pre*; do sh -n "$name" && stat -c '%A %n' "$name"; done)
echo "== files but documents and completions"
dpkg-deb -c "$work/one/dfr_${version}_amd64.deb" | awk '{ print $1, $2, $6 }' | grep -v '/share/\(doc\|zsh\|fish\|bash-completion\)/'
echo "== programs"
dpkg-deb -x "$work/one/dfr_${version}_amd64.deb" "$work/deb"
tar -C "$work" -xzf "$work/one/dfr-$version-linux-x86_64.tar.gz"
for name in dfr dfrd dfrbus comtrade; do
    cmp "${!name}" "$work/deb/usr/bin/$name" && cmp "${!name}" "$work/dfr-$version-linux-x86_64/bin/$name" && echo "$name"
done
(cd "$work/deb" && md5sum --quiet -c "$work/control/md5sums") && echo "md5sums"
