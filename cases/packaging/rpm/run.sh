# The rpm: a second run gives the same bytes. What it has and needs. It is installed, upgraded and removed in a folder of its own,
# without its scripts: set-ups that somebody changed stay.
for tool in rpmbuild readelf; do command -v $tool > /dev/null || { echo "no $tool" >&2; exit 77; }; done
[ "$(id -u)" = 0 ] || { echo "only root can install an rpm in a folder" >&2; exit 77; }
exec 2>&1
work=$(mktemp -d)
trap 'rm -rf "$work"' EXIT
export LC_ALL=C
version=$(cat ../VERSION)
mkdir "$work/room"
../packaging/build "$work/one" rpm
(umask 077 && TZ=Asia/Tokyo LC_ALL=C.UTF-8 TMPDIR=$work/room ../packaging/build "$work/two" rpm)
../packaging/build --version "$version~0" "$work/lower" rpm
cmp "$work"/one/*.rpm "$work"/two/*.rpm && echo "the same bytes"
rpm=$work/one/dfr-$version-1.x86_64.rpm
rpm -qp --qf '%{NAME} %{ARCH} %{LICENSE} %{BUILDHOST} %{SUMMARY}\n' "$rpm"
echo "== needs"
rpm -qp --requires "$rpm" | grep -v '^rpmlib' | sed 's/GLIBC_[0-9.]*/GLIBC_../' | sort -u
echo "== scripts"
for script in POSTIN PREUN POSTUN; do rpm -qp --qf "%{$script}" "$rpm" | sh -n && echo $script; done
echo "== files but documents and completions; set-ups"
rpm -qp --qf '[%{FILEMODES:perms} %{FILEUSERNAME} %{FILENAMES}\n]' "$rpm" | grep -v '/share/\(doc\|zsh\|fish\|bash-completion\)/'
rpm -qp --configfiles "$rpm"
echo "== installed"
root=$work/root
mkdir "$root"
# (Debian's rpm advises against itself)
apart() { rpm --root "$root" --dbpath /var/lib/rpm "$@" 2>&1 | grep -v '^rpm: RPM should \|^rpm: However '; }
apart --nodeps --noscripts -i "$work/lower/dfr-$version~0-1.x86_64.rpm"
echo "# mine" >> "$root/etc/dfrd/example.setup"
cp "$root/etc/dfrd/example.setup" "$root/etc/dfrd/bay3.setup"
apart --nodeps --noscripts -U "$rpm"
apart -q dfr | sed "s/$version/VERSION/"
apart -V --nodeps dfr
for name in dfr dfrd dfrbus comtrade; do cmp "${!name}" "$root/usr/bin/$name" && echo "$name"; done
echo "== removed"
apart --noscripts -e dfr | sed "s|$root||"
find "$root" -path "$root/var" -prune -o -type f -print | sed "s|$root||" | sort
