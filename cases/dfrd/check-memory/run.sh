# more memory than a test machine has: refused with both figures, by --check and at the start. By hand:
# (1000000 * 66 + 100000 + 98304) scans of 8 * 256 + 256 + 112 bytes, two files of 1000000 rows of
# 7 * 256 + 2 * 256 + 24 bytes, and 4000000: 164595102464 bytes, of which the set-up has 12392 bytes more
. files/dfrd.bash
{
    printf 'station S\ndevice D\n'
    for i in $(seq 256); do printf 'analog A%s,,,A,1,0,0,-9,9,1,1,P\n' "$i"; done
    for i in $(seq 256); do printf 'status S%s,,,0\n' "$i"; done
    printf 'freq 50\nrate 1000\nlimits 100000,1,1000000,64\n'
} > "$work/setup"
"$dfrd" --check "$work/setup" "$folder" 2>&1 | sed "s|$work|WORK|; s/has [0-9]* MB/has SOME MB/"
echo "${PIPESTATUS[0]}"
"$dfrd" "$work/setup" "$folder" < /dev/null 2>&1 | sed "s|$work|WORK|; s/has [0-9]* MB/has SOME MB/"
echo "${PIPESTATUS[0]}"
names
