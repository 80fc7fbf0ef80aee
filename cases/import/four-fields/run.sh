# status lines of four fields keep their normal state, where it is clear which field that is
of=import/four-fields
. files/import/each.sh
