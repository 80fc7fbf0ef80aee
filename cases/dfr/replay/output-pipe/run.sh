# a reader that has gone away before the first byte
{ sleep 1; "$dfr" < dfr/replay/first/in; echo "$?" >&2; } | true
