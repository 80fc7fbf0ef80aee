"$dfr" read files/first.cfg files/first.dat > /dev/full
