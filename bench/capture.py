#!/usr/bin/env python3
"""Random plans and captures: what `dfr_plan` and `dfr_capture` make of them, by a model over whole lists and by `crates/capture_lines`.

    bench/capture.py PROGRAM [CAPTURES [SEED]]
    bench/capture.py make [CAPTURES [SEED]]      # the input, to standard output
    bench/capture.py print [CAPTURES [SEED]]     # what the program must print of that input, by the model
    bench/capture.py judge FILE [CAPTURES [SEED]]     # FILE has what the program printed of that input
    bench/capture.py example FOLDER      # what `dfrbus` is run on, and what it must print

The model knows what each frame says, since it made it, and never reads its bytes. The state of a contact comes from the newest message or
end of a time to live that concerns it; an end is where no message of the control block comes up to the first frame beyond the time to
live. The scans come from the model in bench/bay.py. The plan's lines are read by a reader of its own.
"""
import os
import random
import re
import struct
import subprocess
import sys

sys.dont_write_bytecode = True
from bay import Model as Bay
from bus_captures import element, whole_number

# ---- frames


def sampled(rng, app, mac, units):
    """The frame of units (svID, smpCnt, smpSynch, values), a value with its quality."""
    asdus = b""
    for name, count, synch, values in units:
        fields = [(0x80, name), (0x82, struct.pack(">H", count)), (0x83, struct.pack(">I", 1)), (0x85, bytes([synch])),
                  (0x87, b"".join(struct.pack(">iI", *it) for it in values))]
        asdus += element(rng, 0x30, b"".join(element(rng, tag, it) for tag, it in fields))
    pdu = element(rng, 0x60, element(rng, 0x80, bytes([len(units)])) + element(rng, 0xA2, asdus))
    return ethernet(rng, mac, 0x88BA, struct.pack(">HHHH", app, 8 + len(pdu), 0, 0) + pdu)


def goose(rng, name, said):
    """The frame of a message."""
    true = lambda it: None if it is None else bytes([255 if it else 0])
    data = b"".join(datum(rng, it) for it in said["data"])
    number = lambda it: whole(it)
    fields = [(0x80, name), (0x81, number(said["live"])), (0x82, b"D"), (0x84, bytes(8)), (0x85, number(said["state"])), (0x86, number(0)),
              (0x87, true(said["test"])), (0x88, number(1)), (0x89, true(said["nds"])), (0x8A, number(len(said["data"]))), (0xAB, data)]
    pdu = element(rng, 0x61, b"".join(element(rng, tag, it) for tag, it in fields if it is not None))
    return ethernet(rng, bytes([2, 0, 0, 0, 0, 1]), 0x88B8, struct.pack(">HHHH", 1, 8 + len(pdu), 0x8000 if said["simulated"] else 0, 0) + pdu)


def whole(n):
    return n.to_bytes(n.bit_length() // 8 + 1, "big")


def datum(rng, it):
    """An element: True or False, 'on', 'off', 'between', 'bad' (positions), a number, 'quality', or a list (a structure)."""
    if isinstance(it, list):
        return element(rng, 0xA2, b"".join(datum(rng, one) for one in it))
    if isinstance(it, bool):
        return element(rng, 0x83, bytes([rng.choice([1, 255, 128]) if it else 0]))
    if isinstance(it, int):
        return element(rng, 0x85, whole(it))
    if it == "quality":
        return element(rng, 0x84, bytes([3]) + rng.randbytes(2))
    if it == "odd":
        return element(rng, 0x84, bytes([5]) + bytes([rng.choice([0x80, 0x40])]))
    position = {"on": 0x80, "off": 0x40, "between": 0, "bad": 0xC0}[it]
    return element(rng, 0x84, bytes([6, position | rng.choice([0, 0, 0x3F])]))


def ethernet(rng, mac, kind, payload):
    tags = [struct.pack(">HH", 0x8100, rng.randrange(2**16)) for _ in range(rng.choice([0, 1, 1]))]
    return b"\x01\x0c\xcd\x04\x00\x01" + mac + b"".join(tags) + struct.pack(">H", kind) + payload


def state_of(it, is_first=True):
    """The state that an element has, or None."""
    if isinstance(it, bool):
        return it
    if isinstance(it, list):
        return state_of(it[0], False) if is_first and it else None
    return {"on": True, "off": False}.get(it) if isinstance(it, str) else None


# ---- the reader of plans


class Refused(Exception):
    pass


def number(text, beyond=None, low=0, high=2**32 - 1):
    digits = text[2:] if text.startswith("0x") else text
    base = 16 if text.startswith("0x") else 10
    if base == 10 and digits[:1] in ("+", "-"):
        digits = digits[1:]
    if not digits or any(c not in "0123456789abcdefABCDEF"[:10 if base == 10 else 22] for c in digits):
        raise Refused("Number")
    n = int(digits, base) * (-1 if text.startswith("-") else 1)
    if not 0 <= n < 2**32:
        raise Refused("Number")
    if not low <= n <= high:
        raise Refused(beyond)
    return n


def settings_fault(s):
    rate, late, reach, confirm, limit = s
    return (None if 2 <= rate <= 65536 else "Rate") or (None if 1 <= late < rate else "Late") or (None if 1 <= limit <= 65536 else "Limit") \
        or (None if limit <= reach else "Reach") or (None if confirm >= 1 else "Confirm")


class Plan:
    def __init__(self, rate, analog, status):
        self.rate, self.analog, self.status = rate, analog, status
        self.streams, self.channels, self.blocks, self.contacts, self.follow, self.clock = [], [], [], [], None, None

    def line(self, line):
        line = line.removesuffix("\r")
        word, _, rest = line.replace("\t", " ").partition(" ")
        if not line.strip(" \t") or line[0] == "#" or word in ("input", "options"):
            return
        fields = [it.strip(" ") for it in rest.strip(" ").split(",")]
        if word not in ("stream", "value", "goose", "contact", "follow", "clock"):
            raise Refused("Word")
        getattr(self, "of_" + word)(fields)

    def of_stream(self, fields):
        if len(fields) == 1:
            key = ("svID", fields[0])
            if not fields[0]:
                raise Refused("Name")
        elif len(fields) == 2:
            app = number(fields[0], "AppId", 0, 65535)
            parts = fields[1].split(":")
            if len(parts) != 6 or any(len(it) != 2 or any(c not in "0123456789abcdefABCDEF" for c in it) for it in parts):
                raise Refused("Address")
            key = (app, bytes(int(it, 16) for it in parts))
        else:
            raise Refused("Fields")
        if len(self.streams) == 256:
            raise Refused("Streams")
        if key in self.streams:
            raise Refused("SameStream")
        self.streams.append(key)

    def named(self, names, have, name, many, unknown, order):
        if have >= len(names):
            raise Refused(many)
        if names[have] != name:
            raise Refused(order if name in names else unknown)

    def of_value(self, fields):
        if len(fields) not in (5, 6):
            raise Refused("Fields")
        self.named(self.analog, len(self.channels), fields[0], "ManyValues", "Channel", "ChannelOrder")
        stream = number(fields[1], "Stream", 1, len(self.streams)) - 1
        value, divisor, mask = number(fields[2], "Value", 0, 255), number(fields[3], "Divisor", 1), number(fields[4])
        if fields[5:] not in ([], ["clip"]):
            raise Refused("Clip")
        self.channels.append((stream, value, divisor, mask, len(fields) == 6))

    def of_goose(self, fields):
        if len(fields) > 2:
            raise Refused("Fields")
        if fields[1:] not in ([], ["stays"], ["normal"]):
            raise Refused("Doubt")
        if not fields[0]:
            raise Refused("Name")
        if fields[0] in [name for name, _ in self.blocks]:
            raise Refused("SameBlock")
        self.blocks.append((fields[0], fields[1:] == ["normal"]))

    def of_contact(self, fields):
        if len(fields) != 3:
            raise Refused("Fields")
        self.named([it for it, _ in self.status], len(self.contacts), fields[0], "ManyContacts", "Contact", "ContactOrder")
        block = number(fields[1], "Block", 1, len(self.blocks)) - 1
        self.contacts.append((block, number(fields[2], "Element", 0, 1023), self.status[len(self.contacts)][1]))

    def of_follow(self, fields):
        if self.follow:
            raise Refused("Twice")
        if len(fields) != 4:
            raise Refused("Fields")
        late, reach, confirm, limit = map(number, fields)
        fault = settings_fault((self.rate, late, reach, confirm, limit))
        if fault:
            raise Refused(f"Follow({fault})")
        self.follow = (self.rate, late, reach, confirm, limit)

    def of_clock(self, fields):
        if self.clock:
            raise Refused("Twice")
        if len(fields) != 1:
            raise Refused("Fields")
        if fields[0] not in ("global", "capture"):
            raise Refused("Clock")
        self.clock = fields[0]

    def whole(self):
        self.follow = self.follow or (self.rate, max(1, self.rate // 4), self.rate // 2, 8, self.rate * 3 // 1000 + 1)
        if not self.streams:
            raise Refused("NoStream")
        if len(self.channels) < len(self.analog):
            raise Refused("FewValues")
        if len(self.contacts) < len(self.status):
            raise Refused("FewContacts")
        if settings_fault(self.follow):
            raise Refused(f"Rate({settings_fault(self.follow)})")


def read_plan(setup, rate, analog, status):
    """The plan, or the name of what is refused as the program prints it."""
    plan, is_below = Plan(rate, analog, status), False
    for n, line in enumerate(setup.split("\n"), 1):
        if is_below:
            try:
                plan.line(line)
            except Refused as it:
                return f"Line({n}, {it})"
        elif line.split(" ")[0] == "go":
            is_below = True
    try:
        plan.whole()
    except Refused as it:
        return str(it)
    return plan


# ---- what a capture must give


def reading(channel, values):
    """The reading of a channel, or why there is none."""
    _, index, divisor, mask, clips = channel
    if values is None or index >= len(values):
        return "Absent"
    value, quality = values[index]
    if quality & mask:
        return "Quality"
    size = (abs(value) + divisor // 2) // divisor
    if size > 32767:
        if not clips:
            return "Range"
        size = 32767
    return -size if value < 0 else size


class Judged:
    """What frames (time, kind, said) must give under a plan."""

    def __init__(self, plan, frames):
        self.plan, self.frames = plan, frames
        self.messages = [[(i, t, said) for i, (t, kind, said) in enumerate(frames) if kind == "goose" and self.block_of(said) == b]
                         for b in range(len(plan.blocks))]
        self.ends = [self.ends_of(all) for all in self.messages]
        self.bay = Bay(*plan.follow, len(plan.streams))
        self.content = {}
        self.events = [self.events_of(i) for i in range(len(frames))]

    def block_of(self, said):
        return next((b for b, (name, _) in enumerate(self.plan.blocks) if name == said["name"]), None)

    def ends_of(self, messages):
        """The frames at which a time to live is over."""
        ends = []
        for k, (i, t, said) in enumerate(messages):
            last = messages[k + 1][0] if k + 1 < len(messages) else len(self.frames) - 1
            end = next((j for j in range(i + 1, last + 1) if self.frames[j][0] > t + said["live"] * 1_000_000), None)
            if end is not None:
                ends.append(end)
        return ends

    def doubtful(self, said):
        return bool(said["test"] or said["nds"] or said["simulated"])

    def state(self, contact, frame):
        """The state of a contact after the times to live that are over by a frame, and the messages before it."""
        block, element, normal = contact
        told = [(j, 0, normal) for j in self.ends[block] if j <= frame and self.plan.blocks[block][1]]
        for i, _, said in self.messages[block]:
            if i >= frame:
                continue
            if self.doubtful(said):
                if self.plan.blocks[block][1]:
                    told.append((i, 1, normal))
            elif element < len(said["data"]) and state_of(said["data"][element]) is not None:
                told.append((i, 1, state_of(said["data"][element])))
        return max(told, key=lambda it: it[:2])[2] if told else normal

    def events_of(self, i):
        time, kind, said = self.frames[i]
        told = [f"control block {b + 1}: its time to live is over" for b in range(len(self.plan.blocks)) if i in self.ends[b]]
        if kind == "goose" and self.block_of(said) is not None:
            told += self.message_events(i, said, self.block_of(said))
        elif kind == "sampled":
            bits = "".join("01"[self.state(it, i)] for it in self.plan.contacts)
            for unit in said["units"]:
                told += self.unit_events(time, said, unit, bits)
        elif kind == "broken":
            told.append(f"a frame that cannot be read: byte {len(said)}: a field goes on where the bytes end")
        return told

    def message_events(self, i, said, b):
        told, before = [], [it for at, _, it in self.messages[b] if at < i]
        if before and said["state"] < before[-1]["state"]:
            told.append(f"control block {b + 1}: a state from before")
        elif before and said["state"] > before[-1]["state"] + 1:
            told.append(f"control block {b + 1}: states lost: {said['state'] - before[-1]['state'] - 1}")
        if self.doubtful(said):
            return [*told, f"control block {b + 1}: a test, simulated, or in commissioning"]
        has = lambda element: element < len(said["data"]) and state_of(said["data"][element]) is not None
        return told + [f"contact {n + 1}: a message without its state" for n, (block, element, _) in enumerate(self.plan.contacts) if block == b and not has(element)]

    def unit_events(self, time, said, unit, bits):
        name, count, synch, values = unit
        keys = [("svID", name.decode()), (said["app"], said["mac"])]
        stream = next((n for n, key in enumerate(self.plan.streams) if key in keys), None)
        if stream is None:
            return []
        content = len(self.content)
        self.content[content] = (time, synch, count, values, bits)
        answer, lost = self.bay.frame(stream, count, content)
        words = {"Taken": f"samples lost: {lost}", "Restarted": f"begins anew; samples lost: {lost}, or whole seconds more", "Repeated": "a sample came twice",
                 "Late": "a sample came late", "Astray": "a sample far from the others", "Invalid": "smpCnt is not below the rate"}
        return [] if (answer, lost) == ("Taken", 0) else [f"stream {stream + 1}: {words[answer]}"]

    def lines(self):
        """The lines of all scans, and the missing readings."""
        lines, missing = [], []
        for scan in self.bay.scans():
            units = [None if it is None else self.content[it] for it in scan]
            first = next((it for it in units if it), None)
            if first is None:
                lines.append("lost")
                continue
            time, synch, count, _, bits = first
            if count == 0 and (self.plan.clock == "capture" or synch == 2):
                top = time // 1000 if self.plan.clock == "capture" else (time + 500_000_000) // 10**9 * 10**6
                lines.append(f"time {top}")
            readings = [reading(it, units[it[0]] and units[it[0]][3]) for it in self.plan.channels]
            missing += [(n, it) for n, it in enumerate(readings) if isinstance(it, str)]
            lines.append("scan " + ",".join("*" if isinstance(it, str) else str(it) for it in readings) + "/" + bits)
        return lines, missing


# ---- random plans and captures


def spoiled(rng, lines):
    """Plan lines with an error, perhaps."""
    lines = list(lines)
    way = rng.randrange(14)
    at = rng.randrange(len(lines)) if lines else 0
    if not lines or way == 0:
        lines.insert(at, rng.choice(["", "  ", "# a comment", "input cat x", "options --raw", "#", "\t", "Stream X", "go", "go on", " stream Y", "scan 1/", "values"]))
    elif way == 1:
        del lines[at]
    elif way == 2:
        lines.insert(at, lines[rng.randrange(len(lines))])
    elif way == 3:
        other = rng.randrange(len(lines))
        lines[at], lines[other] = lines[other], lines[at]
    elif way == 4:
        lines[at] += rng.choice([",", ",1", ",clip", ",normal", ",stays", " ", "\t", " x", "\r"])
    elif way == 5:
        lines[at] = lines[at].rpartition(",")[0] or lines[at].split(" ")[0]
    else:
        word, _, rest = lines[at].partition(" ")
        fields = rest.split(",")
        fields[rng.randrange(len(fields))] = rng.choice(
            ["0", "1", "2", "3", "255", "256", "1023", "1024", "65535", "65536", "4294967295", "4294967296", "0x0", "0xFFFFFFFF", "0x100000000", "0x", "0xfg", "-1",
             "-0", "+1", "", "A0", "A1", "C0", "C1", "A9", "x", "00:0c:cd:04:00:1", "00:0c:cd:04:00:1g", "00-0c-cd-04-00-11", "0x0000000000001", "1.5", "clip", "normal", " 1 "])
        lines[at] = word + " " + ",".join(fields)
    return lines


def plan_lines(rng, rate, streams, channels, blocks, contacts, widths):
    lines = [("stream " + key[1]) if key[0] == "svID" else f"stream {rng.choice(['0x%04X' % key[0], str(key[0])])},{':'.join('%02x' % b for b in key[1])}" for key in streams]
    for n in range(channels):
        mask = rng.choice(["0", "3", "0x3", "0xFFFFFFFF", "0x2003", "0x80000000"])
        clip = rng.choice(["", "", ",clip"])
        lines.append(f"value A{n},{rng.randint(1, len(streams))},{rng.randrange(widths)},{rng.choice([1, 1, 2, 3, 7, 10, 1000, 65537, 2**31, 2**32 - 1])},{mask}{clip}")
    lines += ["goose " + name + rng.choice(["", ",stays", ",normal"]) for name in blocks]
    if blocks:
        lines += [f"contact C{n},{rng.randint(1, len(blocks))},{rng.randrange(5)}" for n in range(contacts)]
    limit = rng.choice([1, 1, 2, 3, 5])
    if rng.random() < 0.7:
        lines.append(f"follow {rng.randint(1, max(1, min(rate - 1, 8)))},{limit + rng.choice([0, 0, 1, 3, 10])},{rng.choice([1, 2, 3, 5])},{limit}")
    if rng.random() < 0.6:
        lines.append("clock " + rng.choice(["global", "capture"]))
    return lines


def value(rng):
    big = rng.choice([-2**31, 2**31 - 1, 32767, 32768, -32767, -32768, 65535])
    return (rng.choice([0, 1, -1, rng.randrange(-40000, 40000), rng.randrange(-2**31, 2**31), big]), rng.choice([0, 0, 0, 0, 1, 2, 3, 0x2000, rng.randrange(2**32)]))


def element_of(rng):
    return rng.choice([True, False, True, False, "on", "off", "on", "off", "between", "bad", "odd", 5, "quality", [True], [False, 3], ["on", "quality"], ["off"], [], [[True]], [7]])


def message(rng, names, states):
    name = rng.choice([*names, "OTHER/LLN0$GO$x"])
    states[name] = max(0, states.get(name, 1) + rng.choice([0, 0, 0, 1, 1, 1, 2, 5, -1]))
    flag = lambda often: rng.choice([True] + [False, None] * often)
    said = {"name": name, "live": rng.choice([1, 5, 5, 20, 1000]), "state": states[name], "test": flag(5), "nds": flag(8), "simulated": rng.random() < 0.05,
            "data": [element_of(rng) for _ in range(rng.randrange(6))]}
    return goose(rng, name.encode(), said), "goose", said


def capture(rng, rate, streams, blocks, widths):
    """Frames: time, bytes, kind, and what they say."""
    loss, repeat, jump, swap = (rng.choice([0, 0, 0.02, 0.1, 0.3]) for _ in range(4))
    place, frames, states = [rng.randint(0, rate - 1)] * len(streams), [], {}
    time = rng.randrange(10**9, 2 * 10**18)
    synch = rng.choice([[2], [1], [0], [0, 1, 2, 2]])
    for _ in range(rng.choice([1, 5, 20, 60])):
        for n, key in enumerate(streams):
            time += rng.choice([0, 1000, 200_000, 3_000_000])
            if rng.random() < loss:
                place[n] += 1
                continue
            if rng.random() < jump / 5:
                place[n] += rng.randint(0, rate)
            units = []
            for _ in range(rng.choice([1, 1, 1, 2])):
                name = key[1].encode() if key[0] == "svID" else rng.choice([b"MU01", b"X", b"", b"MU0"])
                units.append((name, place[n] % rate, rng.choice(synch), [value(rng) for _ in range(rng.choice([widths, widths, widths, 0, 1]))]))
                place[n] += 1
            app, mac = (rng.choice([0x4000, 0x4001]), bytes([0, 12, 205, 4, 0, rng.choice([17, 18])])) if key[0] == "svID" else key
            frame = (time, sampled(rng, app, mac, units), "sampled", {"app": app, "mac": mac, "units": units})
            frames += [frame] * (2 if rng.random() < repeat else 1)
        if rng.random() < 0.5 and blocks:
            frames.append((time, *message(rng, blocks, states)))
        if rng.random() < 0.03:
            # each of the broken ones lacks a field at its end
            kind, data = rng.choice([("broken", b"\0" * 11), ("broken", b"\0" * 12 + b"\x88\xba"), ("broken", b"\0" * 12 + b"\x88\xb8\0\0"),
                                     ("other", b"\0" * 12 + b"\x08\0" + b"\1" * 40), ("broken", b"\0" * 12 + b"\x81\0\0\1\x88\xba\x40\0\0\x08\0\0\0\0")])
            frames.append((time, data, kind, data))
        if rng.random() < 0.02:
            time = max(0, time + rng.choice([-10**8, 10**9, 5 * 10**6]))
    for i in range(len(frames) - 1):
        if rng.random() < swap / 3:
            frames[i], frames[i + 1] = frames[i + 1], frames[i]
    return frames


def case(rng):
    """A set-up, its rate and channels, and frames."""
    rate = rng.choice([2, 3, 5, 8, 20, 50, 80])
    all_keys = [("svID", "MU01"), ("svID", "MU02"), ("svID", "a b"), (0x4000, bytes([0, 12, 205, 4, 0, 17])), (0x4001, bytes([0, 12, 205, 4, 0, 18]))]
    streams = rng.sample(all_keys, rng.choice([1, 1, 2, 2, 3]))
    channels, contacts, widths = rng.choice([0, 1, 2, 8]), rng.choice([0, 1, 3, 5]), rng.choice([1, 4, 8])
    if not channels and not contacts:
        channels = 1
    blocks = [f"IED{n}LD0/LLN0$GO$gcb0{n}" for n in range(rng.choice([1, 1, 2, 3]))] if contacts else []
    normal = [rng.random() < 0.3 for _ in range(contacts)]
    head = ["station S", "device D", *[f"analog A{n},,,A,1,0,0,-32767,32767,1,1,P" for n in range(channels)], *[f"status C{n},,,{int(it)}" for n, it in enumerate(normal)],
            "freq 50", f"rate {rng.choice([rate] * 30 + [1, 65537])}", "limits 1,1,3,1"]
    lines = plan_lines(rng, rate, streams, channels, blocks, contacts, widths)
    if rng.random() < 0.4:
        for _ in range(rng.choice([1, 1, 2])):
            lines = spoiled(rng, lines)
    setup = "\n".join([*head, *(["go"] if rng.random() < 0.98 else []), *lines])
    said = int(head[-2].split(" ")[1])
    return setup, said, [f"A{n}" for n in range(channels)], [(f"C{n}", it) for n, it in enumerate(normal)], capture(rng, rate, streams, blocks, widths)


# ---- the comparison


def text_of(cases):
    out = []
    for setup, _, _, _, frames in cases:
        out += ["setup", setup, "end"]
        out += [f"frame {time} {data.hex()}" for time, data, _, _ in frames]
    return "\n".join(out) + "\n"


def compare(cases, told):
    """How many cases differ, and counts of what was seen."""
    at, wrong, seen = 0, 0, {}
    count = lambda key, n=1: seen.__setitem__(key, seen.get(key, 0) + n)
    for k, (setup, rate, analog, status, frames) in enumerate(cases):
        plan = read_plan(setup, rate, analog, status)
        has_go = "\ngo\n" in setup + "\n"
        want = plan if isinstance(plan, str) else "plan"
        got, at = told[at], at + 1
        if got != want and not (not has_go and got == "set-up"):
            print(f"case {k}: {got}, and {want} is wanted\n{setup}", file=sys.stderr)
            wrong += 1
        count("plans" if got == "plan" else got.split("(")[0] if "Line" not in got else got.split(", ", 1)[1].rstrip(")").split("(")[0])
        if got != "plan":
            continue
        events, lines, missing = [], [], []
        while at < len(told) and told[at].split(" ")[0] in ("frame", "event", "missing", "scan", "lost", "time"):
            word, _, rest = told[at].partition(" ")
            if word == "frame":
                events.append([])
            elif word == "event":
                events[-1].append(rest)
            elif word == "missing":
                missing.append((int(rest.split(" ")[0]), rest.split(" ")[1]))
            else:
                lines.append(told[at])
            at += 1
        if isinstance(plan, str):
            continue
        judged = Judged(plan, [(time, kind, said) for time, _, kind, said in frames])
        wanted = (judged.events, *judged.lines())
        for name, one, other in zip(("events", "lines", "missing"), (events, lines, missing), wanted):
            if one != other:
                wrong += 1
                first = next((i for i, (a, b) in enumerate(zip(one, other)) if a != b), min(len(one), len(other)))
                print(f"case {k}: {name} differ at {first} of {len(one)}, {len(other)}: {one[first:first + 2]}, and {other[first:first + 2]} are wanted\n{setup}", file=sys.stderr)
        count("frames", len(frames))
        count("scans", sum(it.startswith("scan") for it in lines))
        count("lost scans", lines.count("lost"))
        count("times", sum(it.startswith("time") for it in lines))
        count("missing", len(missing))
        for it in sum(events, []):
            count(re.sub(r" \d+|:.*: a field.*", "", it))
    wrong += at != len(told)
    return wrong, seen


def printed(cases):
    """What the program must print. A frame gives what the frames up to it have more than those before it."""
    out = []
    for setup, rate, analog, status, frames in cases:
        plan = read_plan(setup, rate, analog, status)
        out.append(plan if isinstance(plan, str) else "plan")
        if isinstance(plan, str):
            continue
        given, missing = 0, 0
        for n in range(1, len(frames) + 1):
            judged = Judged(plan, [(time, kind, said) for time, _, kind, said in frames[:n]])
            lines, lost = judged.lines()
            out += ["frame", *[f"event {it}" for it in judged.events[-1]], *[f"missing {c} {why}" for c, why in lost[missing:]], *lines[given:]]
            given, missing = len(lines), len(lost)
    return "\n".join(out) + "\n"


def pcap(frames):
    """A capture of these frames, in nanoseconds."""
    head = struct.pack("<IHHiIII", 0xA1B23C4D, 2, 4, 0, 0, 262144, 1)
    return head + b"".join(struct.pack("<IIII", time // 10**9, time % 10**9, len(data), len(data)) + data for time, data, _, _ in frames)


def example(folder):
    """A bay of two streams at 50 samples a second, and a contact, for three seconds: a loss, a late stream, a bad quality, a clipped value,
    a breaker that opens, a message in test."""
    setup = open(os.path.join(folder, "data", "bay.setup"), encoding="utf-8").read()
    rng, start, frames = random.Random(9), 1_719_829_799_980_000_000, []
    mac, name = bytes.fromhex("000ccd040012"), "IED1LD0/LLN0$GO$gcb01"
    position, number = "off", 1
    for k in range(150):
        time = start + k * 20_000_000
        if k % 40 == 30:
            position, number = ("on" if position == "off" else "off"), number + (2 if k == 110 else 1)
            said = {"name": name, "live": 2000, "state": number, "test": k == 70, "nds": None, "simulated": False, "data": [position, "quality"]}
            frames.append((time - 5_000_000, goose(rng, name.encode(), said), "goose", said))
        currents = [(round(1000 * (k % 7 - 3) * (40 if k > 100 else 1)), 0x2000 if k == 12 else 1 if k == 13 else 0) for _ in range(4)]
        voltages = [(k * 11 - 500, 0), (-k, 0)]
        if k not in (20, 21, 80):
            units = [(b"MU01", k % 50, 2 if k < 100 else 1, currents)]
            frames.append((time, sampled(rng, 0x4000, bytes.fromhex("000ccd040011"), units), "sampled", {"app": 0x4000, "mac": bytes.fromhex("000ccd040011"), "units": units}))
        if k not in (21, 60):
            units = [(b"", k % 50, 2, voltages)]
            frames.append((time + 300_000, sampled(rng, 0x4001, mac, units), "sampled", {"app": 0x4001, "mac": mac, "units": units}))
    plan = read_plan(setup, 50, ["IA", "IB", "UA"], [("BREAKER", False)])
    lines, _ = Judged(plan, [(time, kind, said) for time, _, kind, said in frames]).lines()
    with open(os.path.join(folder, "stdin"), "wb") as it:
        it.write(pcap(frames))
    with open(os.path.join(folder, "stdout"), "w", encoding="utf-8") as it:
        it.write("\n".join(lines) + "\n")


def main():
    words = sys.argv[1:]
    if words[0] == "example":
        return example(words[1])
    file = words.pop(1) if words[0] == "judge" else None
    captures, seed = int(words[1]) if len(words) > 1 else 1000, int(words[2]) if len(words) > 2 else 1
    rng = random.Random(seed)
    cases = [case(rng) for _ in range(captures)]
    if words[0] in ("make", "print"):
        sys.stdout.write(text_of(cases) if words[0] == "make" else printed(cases))
        return 0
    if file:
        told = open(file, encoding="utf-8").read().splitlines()
    else:
        told = subprocess.run([words[0]], input=text_of(cases).encode(), stdout=subprocess.PIPE, check=True).stdout.decode().splitlines()
    wrong, seen = compare(cases, told)
    print(f"{captures} captures (" + ", ".join(f"{n} {key}" for key, n in sorted(seen.items())) + f"): {wrong} differences")
    return 1 if wrong else 0


if __name__ == "__main__":
    sys.exit(main())
