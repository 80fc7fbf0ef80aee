# a set-up whose rules stand in a file of their own: beside it, or by an absolute path; faults named with the file and the line
. files/dfrd.bash
mkdir "$work/etc"
setup() { # setup LINE..: its last lines
    printf '%s\n' 'station S' 'device D' 'analog IA,A,,A,1,0,0,-100,100,1,1,P' 'status B,,,0' 'freq 50' 'rate 1000' 'limits 1,1,3,4' "$@" > "$work/etc/setup"
}
try() { "$dfrd" "$@" < /dev/null 2>&1 | sed "s|$work|WORK|g" | head -1; echo "${PIPESTATUS[0]}"; }
check() { try --check "$work/etc/setup" "$folder"; }
echo "== beside the set-up"
setup 'rules @bay.rules'
printf '# of line 3\n\nlevel 0 over 50\n  edge 0 rise;level 0 under -50 \r\n\t\n' > "$work/etc/bay.rules"
check
printf 'scan 1/0\nscan 2/0\nscan -50/0\nscan 3/0\nscan 3/1\nscan 3/1\n' | "$dfrd" --quiet --start 0 "$work/etc/setup" "$folder" | told | grep ^record
(cd "$work/etc" && try --check setup "$folder")
echo "== by an absolute path"
mv "$work/etc/bay.rules" "$work/others"
setup "rules  @$work/others"
check
echo "== no rules"
printf '# none\n' > "$work/others"
check
: > "$work/others"
check
echo "== below go it isn't read"
setup go 'rules @nowhere'
check
echo "== refused"
setup 'rules @bay.rules'
check
mkdir "$work/etc/bay.rules"
check
rmdir "$work/etc/bay.rules"
refused() { printf "$1" > "$work/etc/bay.rules"; check; }
refused '# first\nlevel 0 over\n'
refused 'level 0 over 1\nlevel 0 over x\n'
refused 'level 0 over 1;\n'
refused 'rules level 0 over 1\n'
refused 'level 0 over 1\n\nedge 0 rise;level 1 over 1\nedge 7 rise\n'
refused "$(printf 'level 0 over %s\\n' $(seq 33))"
refused 'edge 0 rise\n'
setup 'rules @'
check
setup 'rules @bay.rules' 'rules @bay.rules'
check
setup 'rules @bay.rules' 'rat 1'
check
setup "$(printf 'rules @bay\377.rules')"
check
