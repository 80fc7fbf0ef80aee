# -o writes what would be printed, for each command; it never overwrites a file, and a command that fails writes none; - is standard output
command -v python3 > /dev/null || { echo "python3 isn't here" >&2; exit 77; }
exec 2>&1
folder=$(mktemp -d)
trap 'rm -r "$folder"' EXIT
cp ../examples/earth-fault/rec1.cfg ../examples/earth-fault/rec1.dat files/first.cfg files/first.dat "$folder"
cd "$folder" || exit 1
printf 'detect HIGH rms over 1000 of IA,IB\n' > lines
same() { # same WORDS.. -o written: the file has what the words alone print
    "$comtrade" "${@:1:$#-2}" > printed
    printed=$?
    "$comtrade" "$@"
    written=$?
    cmp printed written && echo "$1: the same, status $printed and $written"
    rm -f written
}
same show rec1 -o written
same show --json rec1 -o written
same check rec1 -o written
same check --json rec1 -o written
same check rec1.cfg first.dat -o written
same csv rec1 -o written
same plot rec1 -o written
same plot --print rec1 -o written
same page rec1 -o written
same measure rec1 -o written
same measure --at 20 rec1 -o written
same detect lines rec1 -o written
same list . -o written
same events rec1 first -o written
same events --csv rec1 -o written
same fault rec1 -o written
same fault --long rec1 -o written
same compare rec1 rec1 -o written
echo kept > old
"$comtrade" show rec1 -o old
echo "status $?"
"$comtrade" list --output=old .
echo "status $?"
"$comtrade" compare rec1 rec1 --output old
echo "status $?"
cat old
"$comtrade" show nowhere -o new
echo "status $?"
"$comtrade" measure --at 9999 rec1 -o new
echo "status $?"
"$comtrade" plot --width none rec1 -o new
echo "status $?"
"$comtrade" plot rec1 -o no/such/folder.svg
echo "status $?"
ls new
"$comtrade" check rec1 -o -
"$comtrade" check rec1 -o
echo "status $?"
