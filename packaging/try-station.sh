# Sourced by packaging/try: the deb, from the first installation to the purge. bay3 is the station
# of docs/INSTALL.md; its records are compared at the end.
bay3=/var/lib/dfrd/bay3
log_of() { echo "journalctl --no-pager -u dfrd@$1"; }

check "an earlier package is installed, and records" inside << 'END'
apt-get install -y ../previous/*.deb
systemctl start dfrd@example
cd /var/lib/dfrd/example
is_there() { ls *.cfg; }
soon is_there
ls | xargs sha256sum > /tmp/recorded
cat /tmp/recorded
END
check "docs/INSTALL.md, A station" inside <<< "$(block 'A station')"
check "the version is today's" inside << END
dpkg-query -Wf '\${Version}' dfr | grep -x '$version'
dfrd --version | grep -F ' $version '
END
check "the upgrade restarted the running recorder, and changed no record" inside << END
systemctl is-active dfrd@example
[ "\$($(log_of example) | grep -c 'start 20')" = 2 ]
cd /var/lib/dfrd/example
sha256sum -c /tmp/recorded
END
check "the upgrade brought today's set-up of the example, which nobody had changed" inside << 'END'
dpkg-deb --fsys-tarfile dfr_*.deb | tar -xO ./etc/dfrd/example.setup > /tmp/today
dpkg-deb --fsys-tarfile ../previous/*.deb | tar -xO ./etc/dfrd/example.setup > /tmp/then
cmp /tmp/today /etc/dfrd/example.setup
no cmp /tmp/then /etc/dfrd/example.setup
END
check "an upgrade keeps a set-up that somebody changed, with --force-confold" inside << 'END'
apt-get install -y --allow-downgrades ../previous/*.deb
echo '# mine' >> /etc/dfrd/example.setup
apt-get install -y -o Dpkg::Options::=--force-confold ./dfr_*.deb
tail -n 1 /etc/dfrd/example.setup | grep -x '# mine'
cmp /tmp/today /etc/dfrd/example.setup.dpkg-dist
systemctl is-active dfrd@example
END
check "systemd-analyze verify" inside <<< \
    '[ -z "$(systemd-analyze verify dfrd@bay3.service 2>&1)" ]'
exposure=$(inside <<< 'systemd-analyze security --no-pager dfrd@bay3.service' |
    sed -n 's/.*exposure level.*: \([0-9.]*\) .*/\1/p')
check "systemd-analyze security: $exposure, at most 2.0" \
    awk -v exposure="${exposure:-9}" 'BEGIN { exit exposure > 2.0 }'
check "dfrd and its input run as the user dfrd" inside << 'END'
groups=/sys/fs/cgroup/{systemd/,unified/,}system.slice/*/dfrd@bay3.service
pids=$(eval cat "$groups/cgroup.procs" 2> /tmp/none | sort -u || :)
[ "$(ps -o user= -p "$(echo $pids | tr ' ' ,)" | sort | uniq -c | tr -s ' ')" = ' 2 dfrd' ]
END
check "records of the rule and by hand, of the user dfrd, which comtrade reads" inside << END
$(log_of bay3) | grep ' rule 0 '
$(log_of bay3) | grep 'operator at .* trigger opened'
[ "\$(stat -c '%U %a' $bay3/*.cfg | sort -u)" = 'dfrd 640' ]
for cfg in $bay3/*.cfg; do comtrade check \$cfg; done
END
check "other users can't read the records" inside <<< "no runuser -u analyst -- ls $bay3"
check "members of the group dfrd can, and trigger" inside << END
usermod -aG dfrd analyst
runuser -u analyst -- ls $bay3
runuser -u analyst -- sh -c 'echo trigger > /run/dfrd/bay3/orders'
gpasswd -d analyst dfrd
END
check "an input that is killed ten times: it is started again" inside << 'END'
killed=0
for i in $(seq 40); do # (now and then there is none to kill yet)
    if kill -KILL -- "-$(cat /run/dfrd/bay3/input.pid)"; then killed=$((killed + 1)); fi
    [ $killed -lt 10 ] || break
    sleep 1.5
done
[ $killed = 10 ]
soon systemctl is-active dfrd@bay3
END
check "stopped with a record open: it is written, within 3 s" inside << END
told() { $(log_of bay3) --since "\$since" | grep "\$1"; } # since the restart
asked() { # a trigger is refused as long as there is no scan
    echo trigger > /run/dfrd/bay3/orders
    sleep 0.2
    told 'trigger opened'
}
sed -i 's/^limits .*/limits 480,24000,30000,8/' /etc/dfrd/bay3.setup
systemctl stop dfrd@bay3
sleep 1
since=\$(date '+%F %T')
systemctl start dfrd@bay3
soon told ' start 20'
soon asked
begin=\$(date +%s%N)
systemctl stop dfrd@bay3
taken=\$((\$(date +%s%N) - begin))
told 'record .* cut'
told 'end scans'
[ "\$(systemctl show -P Result dfrd@bay3)" = success ]
[ \$taken -lt 3000000000 ]
END
check "a station whose scans come through the FIFO" inside << 'END'
sed '/^input/d' /etc/dfrd/example.setup > /etc/dfrd/bay4.setup
systemctl start dfrd@bay4
soon [ -p /run/dfrd/bay4/input ]
usermod -aG dfrd analyst
timeout 60 runuser -u analyst -- \
    sh -c '/usr/libexec/dfrd/example-converter 8 4 > /run/dfrd/bay4/input'
two() { [ "$(ls /var/lib/dfrd/bay4/*.cfg | wc -l)" = 2 ]; }
soon two
soon systemctl is-active dfrd@bay4
systemctl stop dfrd@bay4
END
check "stopped as soon as it is started: in less than 10 s" inside << 'END'
begin=$(date +%s)
systemctl start dfrd@bay4
systemctl stop dfrd@bay4
[ $(($(date +%s) - begin)) -lt 10 ]
END
check "an error in a set-up is in the journal, and mending it is enough" inside << END
sed 's/^rate 4800/rate much/' /etc/dfrd/example.setup > /etc/dfrd/bay5.setup
systemctl start dfrd@bay5 || :
told() { $(log_of bay5) | grep "\$1"; }
soon told 'bay5.setup.*line'
cp /etc/dfrd/example.setup /etc/dfrd/bay5.setup
soon told ' start 20' # (not the "Failed to start" of systemd)
systemctl is-active dfrd@bay5
systemctl stop dfrd@bay5
END

sums() { inside <<< "cd $bay3 && sha256sum * | sort"; }
before=$(sums)
check "remove: recorders end, records and set-ups stay" inside << 'END'
systemctl start dfrd@bay4
sleep 1
apt-get remove -y dfr
no pgrep -x dfrd
[ ! -e /usr/bin/dfrd ]
[ -f /etc/dfrd/example.setup ]
[ -f /etc/dfrd/bay3.setup ]
END
check "purge" inside <<< 'apt-get purge -y dfr; [ ! -e /etc/dfrd/example.setup ]'
left=$(inside << 'END' | grep -vxF -e /etc/dfrd -e /var/lib/dfrd
find /etc /usr /var /run -xdev -path /var/cache/man -prune -o \
    \( -name dfr -o -name 'dfr[._]*' -o -name 'dfrd*' -o -name comtrade \) -print
END
)
check "purge: what the package made is gone: ${left:-yes}" [ -z "$left" ]
check "purge: a set-up of somebody's stays, and the user, who owns records" inside <<< \
    '[ -f /etc/dfrd/bay3.setup ]; id dfrd'
check "purge: no record is removed or changed" [ "$(sums)" = "$before" ]
check "purge without records: user, group and folders are gone" inside << 'END'
rm -rf /var/lib/dfrd /etc/dfrd
apt-get install -y ./dfr_*.deb
id dfrd
getent group dfrd # (with the member that an earlier check left)
apt-get purge -y dfr
no id dfrd
no getent group dfrd
[ ! -e /var/lib/dfrd ]
[ ! -e /etc/dfrd ]
END
