# data whose form is unclear are refused; row numbers with gaps, and such as begin again, are read
of=import/unclear
. files/import/each.sh
