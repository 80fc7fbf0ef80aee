"""A capture of the bay of the example: capture.py SECONDS BEGUN SYNCH AHEAD SLOW. It begins at sample BEGUN, smpSynch is SYNCH, its time
stamps are AHEAD milliseconds ahead of the samples, and SLOW more each second."""
import importlib.machinery, importlib.util, struct, sys
sys.dont_write_bytecode = True
loader = importlib.machinery.SourceFileLoader("bay", "../examples/bus/bay")
bay = importlib.util.module_from_spec(importlib.util.spec_from_loader("bay", loader))
loader.exec_module(bay)
seconds, begun, synch, ahead, slow = map(int, sys.argv[1:])
sys.stdout.buffer.write(struct.pack("<IHHiIII", 0xA1B2C3D4, 2, 4, 0, 0, 262144, 1))
for k in range(begun, seconds * bay.RATE):
    frame = bay.sampled_values(k, bay.sample(k, 4)[0]).replace(b"\x85\x01\x02", bytes([0x85, 1, synch]))
    time = bay.START + ahead * 10**6 + k * (1000 + slow) * 10**6 // bay.RATE
    sys.stdout.buffer.write(bay.packet(time, frame))
