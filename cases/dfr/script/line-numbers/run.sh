# which lines count: comments and blank lines do, but no blank line at the end
tried() {
    got=$(printf "$1" | "$dfr"; echo "$?")
    echo "$1 | ${got//$'\n'/ | }"
}
tried '# a\n\nstop\n'
tried '# a\r\n \t\r\nstop'
tried 'station x\n\n  \t\n'
tried 'station x\n\n# a\n\n'
tried 'station x\r\n\r\n'
tried '\n\n'
tried '\r'
# one CR ends a line, and a second one is a word of it
got=$({ cat dfr/replay/first/in; printf '\r\r'; } | "$dfr"; echo "$?")
echo "two CR | ${got//$'\n'/ | }"
got=$({ cat dfr/replay/first/in; printf '\r\r\n\n'; } | "$dfr"; echo "$?")
echo "two CR and lines | ${got//$'\n'/ | }"
{ cat dfr/replay/first/in; printf '\r'; } | "$dfr" | cmp - dfr/replay/first/out && echo 'one CR'
