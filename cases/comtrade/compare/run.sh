# two records in one picture: what is drawn and printed of matching channels is what a plain reader of both pairs works out, at both ends of a line with
# other rates and triggers, before and after a change, of a record with itself; what is printed of the other channels; what can't be compared
if ! command -v python3 > /dev/null; then
    cat comtrade/compare/out # skipped: there is no python3 here
    exit 0
fi
exec 2>&1
folder=$(mktemp -d)
trap 'rm -r "$folder"' EXIT
python3 comtrade/compare/pairs.py "$folder"
check() { python3 comtrade/compare/check.py "$comtrade" "$folder" "$@"; }
check near far
check --whole near far
check far near
check --by trigger old new
check near near
texts() { grep -o '>[^<>]*</text>' | sed 's/^>//; s/<.*//'; }
cd "$folder"
# the heads; the channels and contacts of one record alone; both triggers at one time and at two
"$comtrade" compare near far | texts | grep -E '^(A|B|aligned.*|A .* B at.*|only.*|.*field 110 kV.*|trigger 2024.*|[AB]: (Trip|Breaker).*)$'
"$comtrade" compare near near | texts | grep -E '^(aligned|A .* B at|only)'
"$comtrade" compare near near | texts | grep -E '^A .* B: (greatest|rms)' | LC_ALL=C sort | uniq -c
"$comtrade" compare --by trigger old new | texts | grep -E '^(aligned|A .* B at|only)'
# of a part of A its channels are drawn, no contact of either, and what B has besides isn't told; both on one side of the transformers
"$comtrade" compare --from 0 --to 40 --channels 'IA,UA' near.cfg far.dat | texts | grep -E '^(only|[AB]: )|, instants'
"$comtrade" compare --secondary --channels UA near far | texts | grep -E 'secondary|primary'
"$comtrade" compare --width 600 near far | head -n 1 | cut -c 1-50
said() {
    "$comtrade" compare "$@" > out.svg
    echo "status $?, $(if [ -s out.svg ]; then echo a picture; else echo nothing; fi)"
}
said old new
said near foreign
said near timeless
said timeless near
said --by trigger unknown old
said old unknown
said --by hand old new
said --width wide old new
said --channels 'Q*' near far
said --primary --secondary near far
said near nowhere
# a repair of one of both is told with its name; --strict refuses it
sed 's/,1999/,2001/' near.cfg > other.cfg
cp near.dat other.dat
said near other
said --strict near other 2> refused
grep -c other.cfg refused
