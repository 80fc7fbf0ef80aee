# spellings that are told: a colon before the fraction of a second, and decimals in the number of rates and the last row
of=import/spelling
. files/import/each.sh
