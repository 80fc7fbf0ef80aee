# the script and the style of a page are in the program as they stand in their files, and the script is under 30 KB
if ! command -v python3 > /dev/null; then
    cat comtrade/page-carried/out # skipped: there is no python3 here
    exit 0
fi
python3 ../crates/comtrade_plot/page/carry.py check
test "$(wc -c < ../crates/comtrade_plot/page/page.js)" -lt 30720 && echo small
