#!/usr/bin/env python3
"""Prints the contents of a pair and writes the pair again from the arrays that it read: caller.py CFG DAT NEWCFG NEWDAT

If the package is not installed, set PYTHONPATH to the folder python/, and DFR_COMTRADE_LIBRARY to the shared object."""
import sys
from datetime import datetime
from pathlib import Path

import dfr_comtrade
from dfr_comtrade import NO_SAMPLE


def micros(instant):
    passed = instant - datetime(1970, 1, 1)
    return (passed.days * 86400 + passed.seconds) * 10**6 + passed.microseconds


def main(cfg, dat, new_cfg, new_dat):
    rec = dfr_comtrade.read(cfg, dat, exact=True)
    print(f"{rec.station_name}, {rec.rec_dev_id}: {rec.analog_count} analogue, {rec.status_count} status, {len(rec)} rows, {rec.ft}")
    print(f"{rec.frequency:.3f} Hz, times {rec.timemult:.3f}, from {micros(rec.start_timestamp)}, trigger {micros(rec.trigger_timestamp)}")
    for rate in rec.rates:
        print(f"rate {rate.samp:.3f} to row {rate.endsamp}")
    for ch in rec.analog:
        samples = [int(x) for x in ch.samples]
        held = [x for x in samples if x != NO_SAMPLE]
        most = max([0.0] + [float(v) for x, v in zip(samples, ch.values) if x != NO_SAMPLE])
        side = "S" if ch.on_secondary else "P"
        print(f"{ch.id}|{ch.phase}|{ch.component}|{ch.unit}: {ch.a:.6f} {ch.b:.6f} {ch.skew:.6f} {ch.primary:.3f}:{ch.secondary:.3f}{side} {ch.min} to {ch.max}: "
              f"{len(samples) - len(held)} missing, sum {sum(held)}, most {most:.6f}")
    for ch in rec.status:
        print(f"{ch.id}|{ch.phase}|{ch.component}: {ch.normal}: {sum(int(b) for b in ch.bits)} of {len(ch.bits)}")
    for row in (0, len(rec) // 2, len(rec) - 1):
        values = (float(ch.values[row]) for ch in rec.analog)
        print(f"row {row}: {int(rec.times_ns[row])} ns:" + "".join(f" {v:.6f}" if v == v else " -" for v in values) + " /"
              + "".join(f" {ch.bits[row]}" for ch in rec.status))
    made = Path(new_cfg)
    dfr_comtrade.write(made, rec, overwrite=True)
    made.with_suffix(".dat").replace(new_dat)


if __name__ == "__main__":
    main(*sys.argv[1:])
