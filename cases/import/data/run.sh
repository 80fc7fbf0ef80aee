# rows, their numbers and stamps, and the forms of data
. files/import/pair.sh
pair row-cut '' '$d;4s/871.*/87/' '9s/4/3/' '4d'
pair numbers-from-0 '' '1s/^1/0/;2s/^2/1/;3s/^3/2/;4s/^4/3/' '' ''
pair numbers-empty '' 's/^[0-9]*,/,/' '' ''
pair rows-lost '9s/4/7/' '3s/3,2000/6,5000/;4s/4,3000/7,6000/' '8s/1/0/;9s/1000/0/' '3s/2000/5000/;4s/3000/6000/'
pair stamps-again '' '3s/2000/0/;4s/3000/1000/' '' ''
pair stamps-of-ms '' 's/000,/,/' '' ''
pair timemult-of-ms '13s/1/1000/' '' '' ''
pair stamps-all-0 '' 's/,[0-9]*,/,0,/' '' ''
pair stamps-of-ns '' '2,4s/000,/000000,/' '' ''
pair stamps-from-5000 '' '1s/,0,/,5000,/;2s/1000/6000/;3s/2000/7000/;4s/3000/8000/' '' ''
pair stamps-below-0 '' '1s/,0,/,-2000,/;2s/1000/-1000/;3s/2000/0/;4s/3000/1000/' '' ''
pair stamps-with-points '' '2s/1000/1000.2/;3s/2000/1999.6/' '' ''
pair stamps-of-11-digits '8s/1/0/;9s/1000/0/' '2s/1000/10000000000/;3s/2000/20000000000/;4s/3000/30000000000/' '8s/1/0/;9s/1000/0/;13s/1/10/' '2s/1000/1000000000/;3s/2000/2000000000/;4s/3000/3000000000/'
pair stamps-of-18-digits '' '2s/1000/100000000000001000/;3s/2000/100000000000002000/;4s/3000/100000000000003000/;1s/,0,/,100000000000000000,/' '' ''
pair other-marks '' '1s/-903/-nan(ind)/;2s/-465/NaN(0x8000)/;3s/325/#N\/A/' '' '1s/-903/99999/;2s/-465/99999/;3s/325/99999/'
pair no-stamps '' 's/,[0-9]*,/,,/' '' 's/,[0-9]*,/,,/'
pair no-times '8s/1/0/;9s/1000/0/' 's/,[0-9]*,/,,/' '8s/1/0/;9s/1000/0/' 's/,[0-9]*,/,,/'
packed() { # name; what is imported: its cfg's edits and its data; what must come out is the pair of BINARY data, with these edits
    mkdir "$folder/$1"
    sed -b -e "$2" $binary.cfg > "$folder/$1/in.cfg"
    printf "$3" > "$folder/$1/in.dat"
    sed -b -e "$4" $binary.cfg > "$folder/$1/want.cfg"
    cp ${5:-$binary.dat} "$folder/$1/want.dat"
    imported "$1"
}
one='\1\0\0\0\0\0\0\0\x79\xfc\x83\2\1\0'
two='\2\0\0\0\xe8\3\0\0\x2f\xfe\x19\4\1\0'
three='\3\0\0\0\xd0\7\0\0\x45\1\x9b\2\0\0'
four='\4\0\0\0\xb8\x0b\0\0\x67\3\x2b\xff\2\0'
packed plain-binary '' "$one$two$three$four" ''
packed end-mark '' "$one$two$three$four\x1a" ''
packed binary-row-cut '' "$one$two$three${four:0:20}" '9s/4/3/' <(printf "$one$two$three")
packed spare-bits '' "${one:0:30}\5\x80$two$three$four" ''
packed spare-word '' "$one\0\0$two\0\0$three\7\0$four\0\0" ''
packed said-to-be-ascii '12s/BINARY/ASCII/' "$one$two$three$four" ''
packed most-significant-first '' '\0\0\0\1\0\0\0\0\xfc\x79\2\x83\0\1\0\0\0\2\0\0\3\xe8\xfe\x2f\4\x19\0\1\0\0\0\3\0\0\7\xd0\1\x45\2\x9b\0\0\0\0\0\4\0\0\x0b\xb8\3\x67\xff\x2b\0\2' ''
packed no-kind '12d' "$one$two$three$four" ''
packed binary32 '12s/BINARY/BINARY32/' '\1\0\0\0\0\0\0\0\x79\xfc\xff\xff\x83\2\0\0\1\0\2\0\0\0\xe8\3\0\0\x2f\xfe\xff\xff\x19\4\0\0\1\0\3\0\0\0\xd0\7\0\0\x45\1\0\0\x9b\2\0\0\0\0\4\0\0\0\xb8\x0b\0\0\x67\3\0\0\x2b\xff\xff\xff\2\0' ''
packed float32 '12s/BINARY/FLOAT32/' '\1\0\0\0\0\0\0\0\0\xc0\x61\xc4\0\xc0\x20\x44\1\0\2\0\0\0\xe8\3\0\0\0\x80\xe8\xc3\0\x20\x83\x44\1\0\3\0\0\0\xd0\7\0\0\0\x80\xa2\x43\0\xc0\x26\x44\0\0\4\0\0\0\xb8\x0b\0\0\0\xc0\x59\x44\0\0\x55\xc3\2\0' ''
packed said-to-be-float32 '12s/BINARY/FLOAT32/' "$one$two$three$four" ''
mkdir "$folder/said-to-be-binary"
cp $binary.cfg "$folder/said-to-be-binary/in.cfg"
cp $base.dat "$folder/said-to-be-binary/in.dat"
cp $base.cfg "$folder/said-to-be-binary/want.cfg"
cp $base.dat "$folder/said-to-be-binary/want.dat"
imported said-to-be-binary
