# pairs that read exactly but mean something else: each command shows what import makes of them, and prints the repairs; --strict shows
# the literal content, and check keeps its verdict
exec 2>&1
folder=$(mktemp -d)
trap 'rm -r "$folder"' EXIT
mkdir "$folder/pair" "$folder/new"
cp comtrade/intended/*.cfg comtrade/intended/*.dat "$folder/pair"
cd "$folder" || exit 1
for name in big-endian unsigned rows-lost mark first-stamp; do
    echo "== $name"
    "$comtrade" csv pair/$name
    "$comtrade" csv --strict pair/$name
    "$comtrade" check pair/$name
    "$comtrade" import pair/$name new/$name | cmp - <("$comtrade" csv pair/$name 2>&1 > /dev/null) && echo "the same notes"
    for verb in csv show plot page events list measure 'compare --by trigger'; do
        files=$name
        [ "$verb" = 'compare --by trigger' ] && files="$name $name"
        (cd pair && "$comtrade" $verb $files > ../got 2> ../told)
        status=$?
        (cd new && "$comtrade" $verb $files > ../want 2> /dev/null)
        [ $status = $? ] && cmp got want && [ -s told ] && echo "$verb: as imported"
    done
    "$comtrade" convert --kind binary pair/$name pair/$name-binary 2> told
    "$comtrade" convert --kind binary new/$name new/$name-binary
    cmp pair/$name-binary.cfg new/$name-binary.cfg && cmp pair/$name-binary.dat new/$name-binary.dat && [ -s told ] && echo "convert: as imported"
done
# the names of channels are those of the pair
sed 's/IA,A/\xc3\x8eA,A/' pair/big-endian.cfg > pair/named.cfg
cp pair/big-endian.dat pair/named.dat
"$comtrade" csv pair/named
