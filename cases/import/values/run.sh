# samples that a file of 1999 can't hold as they stand: what comes out of each, its error told
. files/import/pair.sh
# two decimals: x by 100, a by 1/100, all exact
pair points '' 's/-903,/-9.03,/;s/-465,/-4.65,/;s/325,/3.25,/;s/871,/8.71,/' '3s/0\.5,0,0,-32767,32767/0.005,0,0,-99999,99998/' ''
pair exponents '' 's/-903,/-9.03E+01,/;s/-465,/-4.65E1,/;s/325,/3.25e+01,/;s/871,/.871D+02,/' '3s/0\.5,0,0,-32767,32767/0.05,0,0,-99999,99998/' ''
# whole numbers over five digits, all of them hundreds
pair hundreds '' 's/-903,/-90300000,/;s/-465,/-46500000,/;s/325,/32500000,/;s/871,/87100000,/' '3s/0\.5,0,0,-32767,32767/50000,0,0,-99999,99998/' ''
# all the same: b says it, x is 0
pair flat '' 's/-903,/0.123456789,/;s/-465,/0.123456789,/;s/325,/0.123456789,/;s/871,/0.123456789,/' '3s/0\.5,0,0,-32767,32767/0.5,0.0617283945,0,-99999,99998/' 's/-903,/0,/;s/-465,/0,/;s/325,/0,/;s/871,/0,/'
# from 0 to 6553300000: the step is 6553300000/65533 and a little more in its ninth digit, the middle 3276650000; the ends are 24983.617 off
pair steps '' 's/-903,/0,/;s/-465,/655330000.5,/;s/325,/3276650000,/;s/871,/6553300000,/' '3s/0\.5,0,/50000.0005,1638325000,/' 's/-903,/-32766,/;s/-465,/-26213,/;s/325,/0,/;s/871,/32766,/'
sed -n 's/^values-rounded: .*(\(.*\))$/\1/p' "$folder/steps/told"
pair marks '' 's/-903,/NaN,/;s/-465,/,/;s/325,/99999,/;s/871,/-32768,/' '' 's/-903,/99999,/;s/-465,/99999,/;s/325,/99999,/;s/871,/99999,/'
# nines through all six characters, in a channel whose range ends below them
pair nines '' 's/-903,/999999,/;s/871,/999999,/' '' 's/-903,/99999,/;s/871,/99999,/'
# samples without a sign: 32768 is taken off, b has it; 65535 and 40000 and 1 and 33000 of channel 1
mkdir "$folder/unsigned"
sed '3s/-32767,32767/0,65535/' $binary.cfg > "$folder/unsigned/in.cfg"
printf '\1\0\0\0\0\0\0\0\xff\xff\x83\2\1\0\2\0\0\0\xe8\3\0\0\x40\x9c\x19\4\1\0\3\0\0\0\xd0\7\0\0\1\0\x9b\2\0\0\4\0\0\0\xb8\x0b\0\0\xe8\x80\x2b\xff\2\0' > "$folder/unsigned/in.dat"
sed '3s/0\.5,0,0,-32767,32767/0.5,16384,0,-32768,32767/' $binary.cfg > "$folder/unsigned/want.cfg"
printf '\1\0\0\0\0\0\0\0\xff\x7f\x83\2\1\0\2\0\0\0\xe8\3\0\0\x40\x1c\x19\4\1\0\3\0\0\0\xd0\7\0\0\1\x80\x9b\2\0\0\4\0\0\0\xb8\x0b\0\0\xe8\0\x2b\xff\2\0' > "$folder/unsigned/want.dat"
imported unsigned
