# the example's set-up with detectors: what --check prints is in docs/dfrd.md; of two faults in eight seconds the residual current is found
# first, then the overcurrent, and nothing at their ends; the frequency never, since the converter keeps 50 Hz
. files/dfrd.bash
setup=../examples/station/setup-detectors
diff <(sed -n '/^\$ dfrd --check examples.station.setup-detectors/,/^```/p' ../docs/dfrd.md | grep -v '^[$`]') <("$dfrd" --check "$setup" "$folder") && echo "as in docs/dfrd.md"
python3 -c '
import runpy, struct, sys
sys.dont_write_bytecode = True
converter = runpy.run_path("../examples/station/converter")
for k in range(8 * converter["RATE"]):
    values, is_open = converter["scan"](k, 4)
    sys.stdout.buffer.write(struct.pack("<3hH", *values, is_open))' |
    "$dfrd" --raw --quiet --start 1719829800000000 "$setup" "$folder" | told | grep -v ^lost
# the bits of each detector: how often it is 1 in the two records
for file in "$folder"/*.dat; do
    tr -d '\r\032' < "$file" | awk -F, '{ for (i = 6; i <= NF; i++) ones[i] += $i } END { for (i = 6; i <= 16; i++) printf "%s%d", (i == 6 ? "" : " "), ones[i]; print "" }'
done
