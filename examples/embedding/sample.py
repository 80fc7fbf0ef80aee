"""Prints the first analogue channel of a record: sample.py CFG DAT"""
import sys

import dfr_comtrade

if len(sys.argv) != 3:
    sys.exit("usage: sample.py CFG DAT")
try:
    record = dfr_comtrade.read(sys.argv[1], sys.argv[2], exact=True)
except (OSError, dfr_comtrade.ComtradeError) as error:
    sys.exit(f"error: {error}")
channel = record.analog[0]
for time, value in zip(record.times, channel.values):
    print(f"{time:.6f} s: {channel.id} {value:.3f} {channel.unit}")
