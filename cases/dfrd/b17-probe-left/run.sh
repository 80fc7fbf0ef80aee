# a probe file that a kill left is removed, and doesn't hide that nothing can be written; the memory that a set-up needs
. files/dfrd.bash
touch "$folder/.dfrd.part"
"$dfrd" --check dfr/replay/first/in "$folder"
ls -A "$folder"
try() {
    touch "$folder/.dfrd.part"
    mount --bind "$folder" "$folder" && mount -o remount,ro,bind "$folder" && "$dfrd" --check dfr/replay/first/in "$folder" 2>&1 | sed "s|$work|WORK|"
}
export -f try
export folder work dfrd
if unshare -rm mount --bind "$folder" "$folder" 2> /dev/null; then unshare -rm bash -c try; else tail -3 dfrd/b17-probe-left/out | head -1; fi
{ printf 'station S\ndevice D\n'
  for _ in $(seq 256); do echo 'analog A,,,A,1,0,0,-100,100,1,1,P'; done
  for _ in $(seq 256); do echo 'status B,,,0'; done
  printf 'freq 50\nrate 4800\nlimits 100,100,1000,64\n'; } > "$work/big"
rm -f "$folder/.dfrd.part"
"$dfrd" --check "$work/big" "$folder"
