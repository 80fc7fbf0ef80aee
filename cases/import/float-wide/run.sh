# floats of twenty-two digits: -2^71, -2^70, 2^-100, 2^70 and 2^71. Eighteen digits are kept, of 10^4; the step is 2^72/65533 of them and a little more in its
# ninth digit, 720608928 * 10^8; 2^71 is 32766.49999 steps, so nearly half a step off, 2^70 is 16383.25, and 2^-100 none
folder=$(mktemp -d)
trap 'rm -rf "$folder"' EXIT
printf '%s\r\n' 'Kallio,Bay 3,2013' 1,1A,0D '1,I,A,,A,1,0,0,-32767,32767,600,1,P' 50 1 1000,5 14/03/2023,01:34:31.853699 14/03/2023,01:34:31.855699 FLOAT32 1 0,0 0,0 \
    > "$folder/in.cfg"
printf '\1\0\0\0\0\0\0\0\0\0\0\xe3\2\0\0\0\xe8\3\0\0\0\0\x80\xe2\3\0\0\0\xd0\7\0\0\0\0\x80\x0d\4\0\0\0\xb8\x0b\0\0\0\0\x80\x62\5\0\0\0\xa0\x0f\0\0\0\0\0\x63' > "$folder/in.dat"
"$comtrade" import "$folder/in.cfg" "$folder/in.dat" "$folder/out" | sed -n 's/^values-rounded: .*(\(.*\))$/\1/p'
sed -n 3p "$folder/out.cfg" | tr -d '\r'
od -An -v -td2 -w10 "$folder/out.dat"
