# with two further words no kind is named: the script is a file `--kind`, the folder is `binary`
. files/live.bash
script=$PWD/dfr/replay/first/in
cd "$folder" && cp "$script" ./--kind && mkdir binary
"$dfr" live --kind binary
ls binary
