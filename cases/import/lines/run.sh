# how files are laid out in bytes and lines: the same pair comes out of each
. files/import/pair.sh
pair strict '' '' '' ''
pair line-feeds 's/\r//' 's/\r//' '' ''
pair mark-of-utf-8 '1s/^/\xef\xbb\xbf/' '' '' ''
pair cr-cr-lf 's/\r/\r\r/' '' '' ''
pair blank-line '3s/^/\r\n/' '3s/^/ \r\n/' '' ''
pair end-mark-in-cfg '$s/$/\n\x1aleft over/' '' '' ''
pair end-mark-in-its-line '$s/\r/\x1a/' '' '' ''
pair mark-in-a-name '1s/,/\x1a,/' '' '1s/,/?,/' ''
pair after-the-end '' '$s/$/left over/' '' ''
pair commas-at-the-ends '1,2s/\r/,,,,,,,,,,\r/;5,$s/\r/,,,,,,,,\r/' 's/\r/,\r/' '' ''
pair lines-of-commas '$s/$/\n,,,,\r\n,,\r/' '$s/.*/,,,,,,\r/' '' ''
pair zeros-at-the-end '$s/$/\n\x00\x00\x00/' '$s/.*/\x00\x00/' '' ''
pair quotes '3s/[^,\r][^,\r]*/"&"/g' '' '' ''
pair semicolons 's/,/;/g' 's/,/;/g' '' ''
pair semicolons-in-cfg 's/,/;/g' '' '' ''
pair decimal-commas 's/,/;/g;s/0\.5/0,5/;s/0\.0125/0,0125/;s/12\.5/12,5/' '' '' ''
pair quoted-comma '3s/Line 3/"Line 3, north"/' '' '3s/Line 3/Line 3; north/' ''
pair comma-in-an-id '3s/IA/Feeder 2, north/' '' '3s/IA/Feeder 2; north/' ''
pair comma-in-a-component '4s/Line 3/Line 3, north/' '' '4s/Line 3/Line 3; north/' ''
pair comma-in-a-contact '5s/Breaker/Breaker,closed/' '' '5s/Breaker/Breaker;closed/' ''
pair comma-in-a-station '1s/Kallio/Kallio, 400 kV/' '' '1s/Kallio/Kallio; 400 kV/' ''
pair comma-between-semicolons 's/,/;/g;3s/Line 3/Line 3, north/' '' '3s/Line 3/Line 3; north/' ''
mkdir "$folder/carriage-returns" "$folder/utf-16"
for name in carriage-returns utf-16; do
    cp $base.cfg "$folder/$name/want.cfg"
    cp $base.dat "$folder/$name/want.dat"
done
tr -d '\n' < $base.cfg > "$folder/carriage-returns/in.cfg"
tr -d '\n' < $base.dat > "$folder/carriage-returns/in.dat"
imported carriage-returns
{ printf '\xff\xfe'; sed -b 's/./&\x00/g;s/$/\n/' $base.cfg | sed -b 's/^\x00//' | tr -d '\n' | sed 's/\r\x00/\r\x00\n\x00/g'; } > "$folder/utf-16/in.cfg"
cp $base.dat "$folder/utf-16/in.dat"
imported utf-16
