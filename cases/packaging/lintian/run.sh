# lintian finds neither errors nor warnings in the deb with the programs; each override says why.
for tool in lintian dpkg-deb readelf; do command -v $tool > /dev/null || { echo "no $tool" >&2; exit 77; }; done
work=$(mktemp -d)
trap 'rm -rf "$work"' EXIT
DPKG_DEB_COMPRESSOR_LEVEL=0 ../packaging/build "$work" dfr # (to save time)
lintian --allow-root --fail-on error,warning "$work"/*.deb 2>&1 && echo "no error and no warning"
cat ../packaging/dfr/lintian-overrides
