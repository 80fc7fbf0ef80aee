# a record of 1,000,000 scans in ASCII form, 100,000 of them before the trigger
. files/replayed.bash
. files/most-scans.bash
most_scans | replayed ascii
