# a device that takes no byte
"$dfr" < dfr/replay/first/in > /dev/full
