# frames of two analogue and 17 status channels: a missing sample, the lowest and the highest value, bits on both sides of a group's
# end, bits without a channel; a level opens the record
. files/dfrd.bash
{
    printf 'station S\ndevice D\nanalog A,,,A,1,0,0,-32767,32767,1,1,P\nanalog B,,,A,1,0,0,-32767,32767,1,1,P\n'
    for i in $(seq 17); do echo "status S$i,,,0"; done
    printf 'freq 50\nrate 1000\nlimits 1,2,4,1\nrules level 0 over 100\n'
} > "$work/setup"
frames <<'END' | "$dfrd" --raw --quiet --start 1719829800350625 "$work/setup" "$folder" | told
1 -32767/1 0
2 32767/32768 1
101 -32768/65535 65534
3 0/0 65535
-4 5/0 0
END
cat "$folder"/*.dat | tr -d "\r\032" | cut -d, -f1-4,5,20,21
