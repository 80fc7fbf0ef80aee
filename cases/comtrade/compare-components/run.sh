# channels of equal names whose components or units differ are compared by phase and kind, unless the other record has an equal one; --map names the
# pair that it cannot take
exec 2>&1
folder=$(mktemp -d)
trap 'rm -r "$folder"' EXIT
for name in near far some; do cp ../examples/earth-fault/rec1.dat "$folder/$name.dat"; done
cp ../examples/earth-fault/rec1.cfg "$folder/near.cfg"
cd "$folder" || exit 1
sed 's/,Line 3,kV,0.01,/,Line to Northfield,V,10,/; s/,Line 3,/,Line to Northfield,/' near.cfg > far.cfg
sed '/,UA,/!s/,Line 3,/,Line to Northfield,/' near.cfg > some.cfg
texts() { grep -o '>[^<>]*</text>' | sed 's/^>//; s/<.*//'; }
apart() { texts | grep -E '^(A .* B: greatest|only)' | sed 's/ at .*//' | LC_ALL=C sort | uniq -c; }
for other in far some; do
    "$comtrade" compare near $other > out.svg
    echo "status $?"
    apart < out.svg
done
for pairs in UA=UB,IA=Q UA=UB,UB UA=IA UA=UB,UC=UB 'UA=UB,'; do
    "$comtrade" compare --map "$pairs" near far > out.svg
    echo "status $?"
done
