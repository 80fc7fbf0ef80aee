"""Damaged files of many rows, for the times that commands take."""
import os
import random

from damage import damaged
from files import Record, head, packed_rows, single, text_rows, whole
from judge import Judge
from sources import put

ROWS = 20000
COMMANDS = (["csv"], ["check"], ["plot"], ["import"])


def long(chance):
    """A record of many rows."""
    r = Record(chance)
    r.channels = r.channels or [r.channel(chance, 0)]
    for c in r.channels:
        c["samples"] = (c["samples"] * (ROWS // r.rows + 1))[:ROWS]
    for c in r.contacts:
        c["bits"] = (c["bits"] * (ROWS // r.rows + 1))[:ROWS]
    r.rows, r.rates, r.multiplier = ROWS, [(r.rates[-1][0], ROWS)], "1"
    return r


FORMS = (
    lambda r: {"cfg": head(r, "ASCII"), "dat": text_rows(r, whole(r))},
    lambda r: {"cfg": head(r, "BINARY"), "dat": packed_rows(r, "h", -32768)},
    lambda r: {"cff": single(head(r, "FLOAT32", "2013"), "FLOAT32",
                             packed_rows(r, "f", float("nan")))},
    lambda r: {"cfg": head(r, "ASCII", "1991"), "dat": text_rows(r, whole(r))},
)


def times_of(judge, names, folder):
    """What each command takes of these files."""
    answers = []
    for words in COMMANDS:
        words = [*words, *names] + ([os.path.join(folder, "new")] if words == ["import"] else [])
        answers.append((words, judge.run(*words)))
        for ending in (".cfg", ".dat"):
            if os.path.exists(os.path.join(folder, "new" + ending)):
                os.remove(os.path.join(folder, "new" + ending))
    return answers


def large(bench, folder):
    judge = Judge(os.path.abspath(bench.asked.comtrade), folder, bench.asked.limit * 10,
                  bench.seen)
    for n in range(-(-bench.asked.large // 5)):
        chance = random.Random(bench.asked.seed * 7919 + n)
        record = FORMS[n % len(FORMS)](long(chance))
        good = times_of(judge, put(record, folder), folder)
        for k in range(min(5, bench.asked.large - n * 5)):
            spoiled, ways = damaged(chance, record)
            name = "large %d-%d: %s" % (n, k, "; ".join(ways))
            bench.seen["damaged of 20,000 rows"] += 1
            for (_, before), (words, answer) in zip(good,
                                                    times_of(judge, put(spoiled, folder), folder)):
                if answer.fault():
                    bench.tell(name, spoiled, "%s: %s" % (words[0], answer.fault()))
                bench.timed(judge, words, answer, before.took, name, spoiled)
        for name in os.listdir(folder):
            os.remove(os.path.join(folder, name))
