# the same in BINARY form
. files/replayed.bash
. files/most-scans.bash
most_scans | replayed binary
