# 99999 is a missing value in whole numbers of 1991 and 1999, and a sample in decimals and in files of 2013
of=import/99999
. files/import/each.sh
