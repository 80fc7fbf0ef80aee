# dates and times of day
. files/import/pair.sh
old='1s/1999/1991/'
pair month-first '10,11s/14.03/03\/14/' '' '' ''
pair day-first-in-1991 "$old" '' '' ''
pair both-ways-in-1991 "$old;10,11s/14.03/03\/04/" '' '10,11s/14.03/04\/03/' ''
pair year-first '10,11s/14.03.2023/2023-03-14/' '' '' ''
pair points '10,11s/14.03.2023/14.03.2023/' '' '' ''
pair named-month '10,11s/14.03.2023/14-MAR-2023/' '' '' ''
pair day-and-month-of-3-digits '10,11s/14.03.2023/014\/003\/2023/' '' '' ''
pair years-of-2-digits '10,11s/2023/23/' '' '' ''
pair years-of-the-20th-century '10,11s/2023/96/' '' '10,11s/2023/1996/' ''
pair one-field '10,11s/,/ /' '' '' ''
pair blank-padded '10,11s/14.03.2023,01:34/ 4\/ 3\/2023, 1: 4/' '' '10,11s/14.03.2023,01:34/04\/03\/2023,01:04/' ''
pair of-utc '10,11s/14.03.2023,\(.*\)\r/2023-03-14T\1Z\r/' '' '' ''
pair midnight-24 '10s/14.03.2023.*\r/31\/12\/2023,24:00:00.000000\r/;11s/.*/01\/01\/2024,00:00:00.002000\r/' '' '10s/14.03.2023.*\r/01\/01\/2024,00:00:00.000000\r/;11s/.*/01\/01\/2024,00:00:00.002000\r/' ''
pair leap-second '11s/.*/31\/12\/2023,23:59:60.250000\r/' '' '11s/.*/01\/01\/2024,00:00:00.250000\r/' ''
pair nanoseconds '10s/853699/853699499/;11s/855699/855699500/' '' '11s/855699/855700/' ''
pair nanoseconds-into-the-year '11s/.*/31\/12\/2023,23:59:59.999999900\r/' '' '11s/.*/01\/01\/2024,00:00:00.000000\r/' ''
pair point-alone '10,11s/\.85.*\r/.\r/' '' '10,11s/\.85.*\r/.000000\r/' ''
pair zeros '10,11s/14.03.2023/00\/00\/0000/' '' '10,11s/14.03.2023/01\/01\/1970/' ''
pair empty '10,11s/.*/,\r/' '' '10,11s/.*/01\/01\/1970,00:00:00.000000\r/' ''
pair no-trigger '11s/.*/,\r/' '' '11s/855699/853699/' ''
pair trigger-of-zeros '11s/.*/00\/00\/0000,00:00:00.000000\r/' '' '11s/855699/853699/' ''
pair trigger-before '11s/855699/853698/' '' '11s/855699/853698/' ''
mkdir "$folder/asked"
sed '1s/1999/1991/;10,11s/14.03/03\/04/' $base.cfg > "$folder/asked/in.cfg"
sed '10,11s/14.03/03\/04/' $base.cfg > "$folder/asked/want.cfg"
cp $base.dat "$folder/asked/in.dat"
cp $base.dat "$folder/asked/want.dat"
imported asked --dates dmy
