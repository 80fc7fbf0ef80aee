# counted frames that Python made, its binascii.crc_hqx the checksum: missing ones, a counter that turns over, damaged ones, and noise
. files/dfrd.bash
printf 'station S\ndevice D\nanalog A,,,A,1,0,0,-32767,32767,1,1,P\nstatus S,,,0\nfreq 50\nrate 1000\nlimits 2,2,9,8\nrules level 0 over 100\n' > "$work/setup"
made() { python3 -c '
import binascii, struct, sys
def frame(counter, sample, bit=0):
    covered = struct.pack("<HhH", counter, sample, bit)
    return b"\xa5" + struct.pack("<H", binascii.crc_hqx(covered, 0xFFFF)) + covered
out = sys.stdout.buffer
'"$1"; }
record() { "$dfrd" --frames counted --quiet --start 1719829800000000 "$@" "$work/setup" "$folder" | told | grep -v "^silent" | sort; }
rows() { cat "$folder"/*.dat | tr -d '\r\032'; rm "$folder"/*; }
# scans 0 to 3, then three are missing, which are lost; the counter turns over from 65535 to 0; scan 8 opens a record
made '
for counter, sample in (65530, 1), (65531, 2), (65532, 3), (65533, 4), (1, 5), (2, 101), (3, 6), (4, 7), (5, 8):
    out.write(frame(counter, sample, counter & 1))' | record
rows
# scan 2 is damaged, and three bytes of noise stand before scan 4; a mark within samples is none: 42405 is A5A5
made '
good = [frame(7 + k, (101 if k == 5 else -23131)) for k in range(9)]
bad = bytearray(good[2])
bad[6] ^= 16
out.write(b"".join(good[:2]) + bytes(bad) + good[3] + b"\xa5\xa5\0" + b"".join(good[4:]))' | record
rows
# a byte is missing of scan 1; half of the last frame comes
made '
good = [frame(k, k) for k in range(5)]
out.write(good[0] + good[1][:4] + good[1][5:] + good[2] + good[3] + good[4][:6])' | record
# no frame at all
made 'out.write(bytes(1000))' | record
"$dfrd" --raw --frames counted "$work/setup" "$folder" < /dev/null 2>&1
echo $?
