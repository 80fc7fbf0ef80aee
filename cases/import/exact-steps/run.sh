# samples that are too many steps of a power of ten, but few steps of another size: whether a·x + b is each sample exactly
command -v python3 > /dev/null || { echo "python3 isn't here" >&2; exit 77; }
folder=$(mktemp -d)
trap 'rm -rf "$folder"' EXIT
python3 import/exact-steps/steps.py "$comtrade" "$folder"
