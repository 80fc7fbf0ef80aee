# numbers in pictures: traces read back out of the SVG agree with the file's values and times, at 1, 8 and 64 channels, ASCII and BINARY;
# no point of a picture of the gallery is outside it
if ! command -v python3 > /dev/null; then
    cat comtrade/plot-numbers/out # skipped: there is no python3 here
    exit 0
fi
folder=$(mktemp -d)
trap 'rm -r "$folder"' EXIT
python3 comtrade/plot-numbers/check.py "$comtrade" "$folder" 2>&1
