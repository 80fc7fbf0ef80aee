# standard input is closed
"$dfr" <&-
