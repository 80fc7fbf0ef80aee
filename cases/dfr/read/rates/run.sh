# the most rate lines that are read
folder=$(mktemp -d)
trap 'rm -r "$folder"' EXIT
{ head -n 4 files/first.cfg; printf '999\r\n'; for _ in {1..998}; do printf '1000,5\r\n'; done; tail -n +6 files/first.cfg; } > "$folder/cfg"
"$dfr" read "$folder/cfg" files/first.dat
