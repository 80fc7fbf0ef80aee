# records that a replay printed, cut into files: the example, binary ones, what is cut off or isn't a replay's, files that are there
folder=$(mktemp -d)
trap 'rm -r "$folder"' EXIT
extracted() {
    "$comtrade" extract "$@" 2>&1 | sed "s|$folder/||g"
    echo "status ${PIPESTATUS[0]}"
}
"$dfr" < ../examples/earth-fault/script | extracted "$folder/one/two"
cmp "$folder/one/two/rec1.cfg" ../examples/earth-fault/rec1.cfg && cmp "$folder/one/two/rec1.dat" ../examples/earth-fault/rec1.dat && echo same
"$dfr" replay --kind binary < dfr/replay/first/in | extracted "$folder/binary"
cmp "$folder/binary/rec1.cfg" files/binary.cfg && cmp "$folder/binary/rec1.dat" files/binary.dat && echo same
"$dfr" < dfr/replay/first/in | extracted "$folder/binary"
"$dfr" < dfr/replay/scans-shared-by-two-records/in | extracted "$folder/shared"
for n in "$folder"/shared/*.cfg; do "$comtrade" check "$n" "${n%.cfg}.dat" | sed "s|$folder/||g"; done
"$dfr" < dfr/replay/first/in | head -c 200 | extracted "$folder/cut"
"$dfr" < dfr/script/fault-line/in | extracted "$folder/fault"
printf 'scan 0\n\033[31mhello\n' | extracted "$folder/foreign"
extracted "$folder/empty" < /dev/null
extracted /dev/null/x < /dev/null
(cd "$folder" && ls -R one binary shared cut)
