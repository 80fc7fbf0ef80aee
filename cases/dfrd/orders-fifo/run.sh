# a FIFO of orders that can't be opened for writing is refused, and doesn't hold up the start. Root may open any: nothing is tried then
# where no other user can be taken
. files/dfrd.bash
mkfifo "$work/orders"
chmod 444 "$work/orders"
chmod 755 "$work"
chmod 777 "$folder"
as=()
[ "$(id -u)" != 0 ] || as=(setpriv --reuid=65534 --regid=65534 --clear-groups)
if "${as[@]}" test -r dfr/replay/first/in -a -x "$dfrd" 2> /dev/null; then
    echo 'scan 1/' | timeout 20 "${as[@]}" "$dfrd" --quiet --start 0 --orders "$work/orders" dfr/replay/first/in "$folder" 2>&1 | sed "s|$work|WORK|"
    echo "${PIPESTATUS[1]}"
else
    cat dfrd/orders-fifo/out
fi
