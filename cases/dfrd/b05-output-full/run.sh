# standard output takes nothing for a while: its lines come later, and those that it had no room for are counted
. files/dfrd.bash
cat > "$work/station.py" <<'P'
import os, subprocess, sys, time
out, into = os.pipe()
os.set_blocking(into, False)
def fill():
    try:
        while True:
            os.write(into, b'.' * 4096)
    except BlockingIOError:
        pass
def drain():
    os.set_blocking(out, False)
    try:
        while os.read(out, 65536):
            pass
    except BlockingIOError:
        pass
    os.set_blocking(out, True)
fill()
dfrd = subprocess.Popen(sys.argv[1:], stdin=subprocess.PIPE, stdout=into)
os.close(into)
dfrd.stdin.write(b'scan 1/\n')
dfrd.stdin.write(b'x\n' * 8000)
dfrd.stdin.write(b'trigger\nscan 2/\nscan 3/\n')
dfrd.stdin.flush()
while not any(name.endswith('.cfg') for name in os.listdir(sys.argv[-1])): # it has read all of them
    time.sleep(0.05)
time.sleep(0.5)
drain()
dfrd.stdin.write(b'scan 4/\n')
dfrd.stdin.close()
text = b''
while True:
    piece = os.read(out, 65536)
    if not piece:
        break
    text += piece
lines = [line.split(' ', 1)[1] for line in text.decode().splitlines() if ' ' in line]
print(lines[0])
print('skipped' if any(line.startswith('skipped') for line in lines) else 'none')
print('missed' if any(line.startswith('missed lines') for line in lines) else 'none missed')
print(*[line for line in lines if line.startswith('end ')], dfrd.wait()) # (on a slow machine more lines are missed, and counted after it)
P
python3 "$work/station.py" "$dfrd" --quiet --start 0 dfr/replay/first/in "$folder"
