# standard output is closed
"$dfr" < dfr/replay/first/in >&-
