# Sourced by packaging/try: the rpm, in the same system, after the deb was purged. Debian's rpm sees
# no other package installed, hence --nodeps, after a look at what it asks for.
check "the rpm: its checksums, and what it needs" inside << 'END'
rpm -K --nosignature dfr-*.rpm
no rpm -i --test dfr-*.rpm
rpm -qp --requires dfr-*.rpm > /tmp/needed
cat /tmp/needed
known='^(rpmlib|/bin/sh$|lib.*64bit|bash|coreutils|findutils|util-linux|systemd)'
[ -z "$(grep -vE "$known" /tmp/needed)" ]
END
check "an earlier rpm is installed, and records" inside << 'END'
rpm -i --nodeps ../previous/*.rpm
systemctl enable --now dfrd@example
cd /var/lib/dfrd/example
is_there() { ls *.cfg; }
soon is_there
ls | xargs sha256sum > /tmp/recorded
END
check "rpm -U: today's version, the recorder restarted, the set-up today's" inside << 'END'
rpm -U --nodeps dfr-*.rpm
[ "$(rpm -q dfr)" = "$(basename dfr-*.rpm .rpm)" ]
systemctl is-active dfrd@example
cmp /tmp/today /etc/dfrd/example.setup
[ -z "$(rpm -V --nodeps dfr)" ]
(cd /var/lib/dfrd/example && sha256sum -c /tmp/recorded)
END
check "rpm -U: a set-up that somebody changed stays" inside << 'END'
rpm -U --nodeps --oldpackage ../previous/*.rpm
echo '# mine' >> /etc/dfrd/example.setup
rpm -U --nodeps dfr-*.rpm
tail -n 1 /etc/dfrd/example.setup | grep -x '# mine'
cmp /tmp/today /etc/dfrd/example.setup.rpmnew
END
check "the rpm's recorder runs as the user dfrd; comtrade reads its records" inside << 'END'
systemctl show -P User dfrd@example | grep -x dfrd
[ "$(stat -c %U /var/lib/dfrd/example/*.cfg | sort -u)" = dfrd ]
for cfg in /var/lib/dfrd/example/*.cfg; do comtrade check $cfg; done
man -w dfrd
END
check "rpm -e: recorders end, records and changed set-ups stay" inside << 'END'
cp /etc/dfrd/example.setup /etc/dfrd/bay3.setup
(cd /var/lib/dfrd/example && sha256sum -c /tmp/recorded)
rpm -e dfr
no pgrep -x dfrd
no rpm -q dfr
[ ! -e /usr/bin/dfrd ]
[ ! -e /run/dfrd ]
[ -z "$(find /etc/systemd/system -name 'dfrd@*')" ]
(cd /var/lib/dfrd/example && sha256sum -c /tmp/recorded)
grep -x '# mine' /etc/dfrd/bay3.setup /etc/dfrd/example.setup.rpmsave
END
inside <<< 'rm -rf /etc/dfrd /var/lib/dfrd; userdel dfrd; groupdel dfrd || :' > "$work/said" 2>&1
