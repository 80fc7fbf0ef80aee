# two ends of a line whose makers name channels otherwise, one in V and with a clock that is 3.7 ms ahead: the same samples, so that all differences
# are 0 once the records are aligned; pairs that are named, also two that exchange their names; what cannot be matched or aligned: channels of two
# units, one channel twice
exec 2>&1
folder=$(mktemp -d)
trap 'rm -r "$folder"' EXIT
cp ../examples/earth-fault/rec1.cfg "$folder/near.cfg"
cp files/first.cfg files/first.dat "$folder"
for name in near far odd; do cp ../examples/earth-fault/rec1.dat "$folder/$name.dat"; done
cd "$folder" || exit 1
sed 's/^\([1-4]\),U\(.\),\(.\),Line 3,kV,0.01,/\1,V\2,\3,Fdr 3,V,10,/; s/^\([5-8]\),I\(.\),\(.\),Line 3,/\1,IL\2,\3,Fdr 3,/
    s/30:00.300625/30:00.304325/; s/30:00.350625/30:00.354325/' near.cfg > far.cfg
sed 's/^\([1-8]\),[UI].,.,Line 3,/\1,X\1,,,/' near.cfg > odd.cfg
texts() { grep -o '>[^<>]*</text>' | sed 's/^>//; s/<.*//'; }
apart() { texts | grep -E '^A .* B: greatest' | sed 's/ at .*//' | LC_ALL=C sort | uniq -c; }
"$comtrade" compare --by fault near far > out.svg
echo "status $?"
apart < out.svg
texts < out.svg | grep '^aligned'
"$comtrade" compare --shift -3.7 near far 2> /dev/null > out.svg
apart < out.svg
texts < out.svg | grep '^aligned'
"$comtrade" compare near far 2> /dev/null | apart | grep -c 'greatest 0 '
"$comtrade" compare --by fault far near 2>&1 > out.svg | grep clock
"$comtrade" compare --map UA=X1,IA=5 near odd > out.svg
echo "status $?"
apart < out.svg
"$comtrade" compare --map IA=IB,IB=IA near near > out.svg
echo "status $?"
for words in '--map UA=Q near odd' '--map Q=X1 near odd' '--map UA near odd' '--map UA=X5 near odd' '--map UA=X1,UB=X1 near odd' 'near odd' '--by fault near first' '--by hand near far' '--shift x near far'; do
    "$comtrade" compare $words > out.svg
    echo "status $?"
done
