"""Changes of status channels."""
import datetime

import dfr_comtrade


def made(*channels):
    status = [dfr_comtrade.Status(name, bits) for name, bits in channels]
    rates = [(1000.0, len(channels[0][1]))] if channels else []
    return dfr_comtrade.read_bytes(*dfr_comtrade.write_bytes([], status, first=datetime.datetime(2024, 2, 29, 12), rates=rates), exact=True)


def test_events():
    record = made(("Trip", [0] * 10 + [1] * 20 + [0] * 30), ("Open", [1] * 10 + [0] * 50), ("Still", [1] * 60))
    trip, opened, _ = record.status
    assert record.events == [(10, 0.01, trip, 1), (10, 0.01, opened, 0), (30, 0.03, trip, 0)]
    assert record.events[0].channel.id == "Trip" and record.events[2].bit == 0


def test_no_events():
    assert made(("One", [1])).events == [] and made(("None", [0] * 5)).events == []
