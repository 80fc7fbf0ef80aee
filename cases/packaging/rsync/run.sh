# The copying of examples/fleet: the commands of its README, with folders of this machine in place of others. A pair that is copied
# while it is written misses its .cfg until the next run; nothing but pairs is copied.
command -v rsync > /dev/null || { echo "no rsync" >&2; exit 77; }
work=$(mktemp -d)
trap 'rm -rf "$work"' EXIT
stations=$work/machines srv=$work/srv/records
walk() { # the README's commands, from the line that has $1 to one that ends them
    awk -v first="$1" 'index($0, first) { on = 1 } on { print substr($0, 5) } on && /done$/ { exit }' ../examples/fleet/README.md |
        sed "s|\$station:/var/lib/dfrd/|$stations/\$station/|; s|\$worker:/srv/records|$stations/\$worker|; s|/srv/records/|$srv/|g" > "$work/walk"
    bash -e "$work/walk"
}
write() { mkdir -p "$(dirname "$stations/$1")" && echo "$2" > "$stations/$1"; }
mkdir -p "$srv"
write station1/bay1/one.dat data
write station1/bay1/one.cfg configuration
write station1/bay1/two.dat data
write station1/bay1/.two.cfg.part half
write station2/bay7/one.dat data
write station2/bay7/one.cfg configuration
echo "== copied from the stations, while a pair is written"
walk 'for station in'
(cd "$srv" && find . -type f | LC_ALL=C sort)
echo "== and a minute later"
mv "$stations/station1/bay1/.two.cfg.part" "$stations/station1/bay1/two.cfg"
walk 'for station in'
(cd "$srv" && find . -type f | LC_ALL=C sort)
echo "== to the workers"
walk 'for worker in'
for worker in worker1 worker2; do diff -r "$srv" "$stations/$worker" && echo "$worker has the same"; done
