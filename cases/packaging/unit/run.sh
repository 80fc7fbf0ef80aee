# The unit dfrd@NAME, as the deb installs it: systemd understands it, and finds it safe (at most 2.0 of 10).
command -v systemd-analyze > /dev/null && systemd-analyze security --help | grep -q -- --offline || { echo "no systemd-analyze with --offline (systemd 250)" >&2; exit 77; }
root=$(mktemp -d)
trap 'rm -rf "$root"' EXIT
units=$root/usr/lib/systemd/system
install -D -m 644 ../packaging/dfr/dfrd@.service "$units/dfrd@.service"
install -D -m 755 ../packaging/dfr/station "$root/usr/libexec/dfrd/station"
install -D -m 755 "$dfrd" "$root/usr/bin/dfrd"
for target in sysinit basic shutdown local-fs multi-user; do printf '[Unit]\nDescription=%s\n' $target > "$units/$target.target"; done
systemd-analyze verify --man=no --root="$root" dfrd@bay3.service 2>&1 && echo "understood"
exposure=$(systemd-analyze security --offline=true --no-pager --root="$root" dfrd@bay3.service | sed -n 's/.*exposure level.*: \([0-9.]*\) .*/\1/p')
awk -v exposure="${exposure:-9}" 'BEGIN { print (exposure > 2.0) ? "exposure " exposure : "exposure at most 2.0" }'
# what must not get lost: restarting for ever, the mount point, and the way to stop
grep -E '^(RequiresMountsFor|StartLimitIntervalSec|Restart|RestartSec|ExecStop|TimeoutStopSec|User|StateDirectory)=' ../packaging/dfr/dfrd@.service
