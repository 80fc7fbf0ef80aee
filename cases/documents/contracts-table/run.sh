# the table of contracts in docs/PROVED.md is the one that bench/contracts counts
python3 ../bench/contracts --check ../docs/PROVED.md
