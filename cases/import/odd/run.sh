# what is odd about pairs without a fault, in notes; the status stays 0
. files/import/pair.sh
odd() { # name; the edits of the base's cfg and dat
    sed -b -e "$2" $base.cfg > "$folder/$1.cfg"
    sed -b -e "$3" $base.dat > "$folder/$1.dat"
    "$comtrade" check "$folder/$1" | sed "s|$folder/||g"
    echo "status ${PIPESTATUS[0]}"
}
odd nothing '' ''
odd stamps-all-0 '' 's/^\([0-9]*\),[0-9]*,/\1,0,/'
odd stamps-of-ms '' 's/000,/,/'
odd stamps-fall '' '3s/2000/0/;4s/3000/1000/'
odd half-an-interval '' '2s/1000/1500/;3s/2000/1499/'
odd without-a-rate '8s/1/0/;9s/1000/0/' 's/^\([0-9]*\),[0-9]*,/\1,0,/'
odd numbers '' '2s/^2/1/;3s/^3/2/;4s/^4/2/'
odd range '3s/-32767,32767/-900,870/' ''
odd turned '3s/-32767,32767/871,-903/;4s/-32767,32767/32767,-32767/' ''
