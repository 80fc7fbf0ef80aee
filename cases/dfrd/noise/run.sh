# bytes by chance, as lines and as frames: it ends, and says so
. files/dfrd.bash
noise() { python3 -c 'import random, sys; r = random.Random(7); sys.stdout.buffer.write(r.randbytes(1000000))'; }
noise | "$dfrd" --quiet --start 0 dfr/replay/first/in "$folder" | told | grep -c ' lost '
noise | "$dfrd" --raw --quiet --start 0 dfr/replay/first/in "$folder" | told | tail -1 | cut -d' ' -f1-3
