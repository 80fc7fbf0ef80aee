# what is refused, with its reason; nothing is written then
. files/import/pair.sh
refused nothing '1,$d' ''
refused no-rows '' '1,$d'
refused swapped '1s/.*/1,0,-903,643,1,0\r/' ''
refused year '1s/1999/1984/' ''
refused later-year '1s/1999/2014/' ''
refused counts '2s/2A/twoA/' ''
refused no-channel '2s/.*/0,0A,0D\r/' ''
refused many '2s/.*/999999999999,999999999998A,1D\r/' ''
refused fields-of-a-channel '3s/,600,1,P//;3s/-32767,//' ''
refused comma-in-a-number '3s/0\.5/0,5/' ''
refused fields-of-a-contact '5s/,,Q0,1/,,Q0,1,1/' ''
refused number '3s/0\.5/half/' ''
refused no-factor '3s/,0.5,0,/,,0,/' ''
refused side '3s/P\r/Q\r/' ''
refused bit '5s/1\r/2\r/' ''
refused rates '8s/1/1000/' ''
refused rate-back '8s/1/2/;9s/.*/1000,4\r\n1000,3\r/' ''
refused date '10s/14.03/31\/02/' ''
refused last-day '10s/.*/31\/12\/9999,24:00:00.000000\r/' ''
refused two-orders '10s/14.03/14\/13/' ''
refused instant '10s/,.*/,late\r/' ''
refused kind '12s/ASCII/EBCDIC/' ''
refused more '$s/$/\nand this, too, and that\r/' ''
refused row-of-fewer '' '2s/,1049//'
refused row-of-more '' '2s/,1049/,1049,1/'
refused value '' '2s/1049/high/'
refused bit-of-a-row '' '2s/,1,0/,1,7/'
refused end '11,$d' ''
refused no-length '12s/ASCII/BINARY/' '1,$s/.*/no rows/'
mkdir "$folder/there"
cp $base.cfg "$folder/there/in.cfg"
cp $base.dat "$folder/there/in.dat"
echo mine > "$folder/there/out.dat"
"$comtrade" import "$folder/there/in.cfg" "$folder/there/in.dat" "$folder/there/out" 2>&1 | sed "s|$folder/||g"
ls "$folder/there"
cat "$folder/there/out.dat"
