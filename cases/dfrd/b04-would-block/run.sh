# a pipe that doesn't block: where it is empty dfrd waits for more
. files/dfrd.bash
python3 - "$dfrd" dfr/replay/first/in "$folder" > "$work/told" <<'END'
import os, subprocess, sys, time
for form, scans in ([], b"scan %d/\n"), (["--raw"], b"%c\0"):
    read, write = os.pipe()
    os.set_blocking(read, False)
    run = subprocess.Popen([sys.argv[1], "--quiet", "--start", "0", *form, *sys.argv[2:]], stdin=read)
    os.close(read)
    for n in range(5):
        time.sleep(0.2)
        os.write(write, scans % n)
    os.close(write)
    print(run.wait(), flush=True)
END
told < "$work/told"
