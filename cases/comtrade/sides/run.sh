# values of the primary and the secondary side are those of the other side times the ratio of the transformer, in all commands; skipped
# without python3 and node, which know the ratio
command -v python3 > /dev/null && command -v node > /dev/null || { echo "python3 and node aren't here" >&2; exit 77; }
exec 2>&1
folder=$(mktemp -d)
trap 'rm -r "$folder"' EXIT
python3 comtrade/sides/check.py "$comtrade" "$folder"
