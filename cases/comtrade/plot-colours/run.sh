# the colours of traces stay apart for eyes without red, green or blue cones, on light and dark pages, and stand out from the page
if ! command -v python3 > /dev/null; then
    cat comtrade/plot-colours/out # skipped: there is no python3 here
    exit 0
fi
python3 comtrade/plot-colours/distances.py 2>&1
