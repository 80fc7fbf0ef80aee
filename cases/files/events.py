"""The events of recordings by chance, as a program of its own computes them: from all scans of a contact, not one by one.

    events.py make SEED FOLDER     writes FOLDER/setup and FOLDER/scans
    events.py told SEED MOST FILE  prints what the file of events must have, and compares it with FILE line by line
"""
import random, sys
from datetime import datetime, timedelta
HEAD = 'instant,station,device,channel,id,state,is,changes,lost,scan'
RATE = 50


def recording(seed):
    """the normal states, and for each scan its bits, or None where it is lost"""
    by = random.Random(seed)
    count = by.randint(1, 6)
    normal = [by.randint(0, 1) for _ in range(count)]
    chances = [by.choice([0.001, 0.02, 0.3, 0.9]) for _ in range(count)]
    bits = [by.randint(0, 1) for _ in range(count)]
    scans = []
    for k in range(by.randint(1, 1500)):
        if by.random() < 0.002:
            chances[by.randrange(count)] = by.choice([0, 0.001, 0.02, 0.3, 0.9])
        bits = [b ^ (by.random() < c) for b, c in zip(bits, chances)]
        lost = by.random() < (0.5 if k % 200 < 10 else 0.01)
        scans.append(None if lost else list(bits))
    return normal, scans


def make(seed, folder):
    normal, scans = recording(seed)
    with open(f'{folder}/setup', 'w') as out:
        out.write('station North %d\ndevice DFR\nanalog IA,A,,A,1,0,0,-9,9,1,1,P\n' % seed)
        for n, bit in enumerate(normal):
            out.write('status %s,,,%d\n' % (contact_id(n), bit))
        out.write('freq 50\nrate %d\nlimits 2,2,6,1\n' % RATE)
    with open(f'{folder}/scans', 'w') as out:
        for k, scan in enumerate(scans):
            if scan is not None:
                out.write('scan %d/%s\n' % (k % 9, ','.join(str(b) for b in scan)))
            else:
                out.write('lost\n' if k % 2 else 'scan x/\n')


def contact_id(n):
    return ['52a breaker', '', 'Trip 1', 'SF6 "low"', 'CB;x', "Bay 3's"][n]


def lines_of(seed, most):
    """(the scan at which it is told, the contact, the line), over the whole recording"""
    normal, scans = recording(seed)
    came = [k for k, scan in enumerate(scans) if scan is not None]
    told = []
    for n, state in enumerate(normal):
        changes = []
        for place, k in enumerate(came):
            before = scans[came[place - 1]][n] if place else state
            if scans[k][n] != before:
                changes.append((k, scans[k][n], k - (came[place - 1] if place else -1) - 1))
        moments = came + [came[-1] + RATE] if came else []
        done, times = 0, []
        for k in moments:
            waiting = [c for c in changes[done:] if c[0] <= k]
            in_second = [t for t in times if k - RATE < t]
            if waiting and len(in_second) < most:
                at, bit, lost = waiting[-1]
                done += len(waiting)
                times.append(k)
                instant = datetime(1970, 1, 1) + timedelta(microseconds=at * 1000000 // RATE)
                is_normal = 'normal' if bit == state else 'off-normal'
                fields = [instant.strftime('%Y-%m-%d %H:%M:%S.%f'), 'North %d' % seed, 'DFR', n + 1, contact_id(n), bit, is_normal, len(waiting), lost, at]
                told.append((k, n, ','.join(str(f) for f in fields)))
        assert done == len(changes)
    told.sort(key=lambda t: t[:2])
    return [HEAD] + [t[2] for t in told]


if sys.argv[1] == 'make':
    make(int(sys.argv[2]), sys.argv[3])
else:
    wanted = lines_of(int(sys.argv[2]), int(sys.argv[3]))
    found = open(sys.argv[4]).read().split('\n')
    assert found[-1] == '', 'the last line is not whole'
    for number, (a, b) in enumerate(zip(wanted, found[:-1])):
        if a != b:
            print('line', number + 1, 'wanted', a, 'found', b)
            sys.exit(1)
    if len(wanted) != len(found) - 1:
        print('wanted', len(wanted), 'lines, found', len(found) - 1)
        sys.exit(1)
    chatter = sum(int(line.split(',')[7]) > 1 for line in wanted[1:])
    print(len(wanted), 'lines', chatter, 'of chatter, the same')
