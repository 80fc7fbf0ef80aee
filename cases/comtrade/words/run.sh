# help, the version, words that ask for nothing, files that aren't there, a reader that has gone away, a full device: standard error
# stands with the rest
exec 2>&1
said() {
    "$comtrade" "$@"
    echo "status $?"
}
said --version
said --help
said help plot | tail -n 1
said show --help
said convert --help
said extract --help
said 2>&1 | head -n 3
said jump
said shw files/first.cfg files/first.dat
said "$(printf 'j\033[31m')"
said show files/first.cfg files/first.dat more
said show --loud files/first.cfg files/first.dat
said check - - < /dev/null
said convert --kind ascii - - x < /dev/null
said csv
said convert --kind ascii files/first.cfg files/first.dat
said convert files/first.cfg files/first.dat x
said convert --kind float files/first.cfg files/first.dat x
said extract
said show "$(printf 'no\033file')" files/first.dat
said show files/first.cfg files/no-file
said show files files/first.dat
said show --strict files/counts.cfg files/first.dat
# what could be taken for an option stands after --
said check -- --loud files/first.dat
exec 3>&1
{ sleep 0.3; "$comtrade" show files/first.cfg files/first.dat 2>&3; echo "gone away: status $?" >&3; } | true
{ sleep 0.3; "$comtrade" --help 2>&3; echo "gone away: status $?" >&3; } | true
"$comtrade" show files/first.cfg files/first.dat > /dev/full
echo "status $?"
"$comtrade" --help > /dev/full
echo "status $?"
"$comtrade" show files/first.cfg files/first.dat >&-
echo "status $?"
said fault --help
said fault --long
said fault --encoding latin99 files/first
