"""Runs commands over damaged files and says what is wrong with the answers."""
import os
import resource
import subprocess

from against import keys_of, read_plainly, with_model, OF_SIZE, QUIET, UNTOLD
from views import Rows

# Views by chance: each reads the same file as csv, so it is refused if csv is.
VIEWS = (["show"], ["show", "--json"], ["events"], ["events", "--json"], ["list"], ["plot"],
         ["plot", "--whole", "--all"], ["page"],
         ["measure"], ["measure", "--at=row 30"],
         ["measure", "--json", "--from=row 1", "--to=row 70"], ["csv", "--primary"],
         ["csv", "--from=0", "--to=5"], ["show", "--encoding=gbk"], ["show", "--changed"])
# These may refuse a record that csv reads: without times, rate, channels, or rows of this part.
CHOOSY = ("measure", "csv", "show --changed", "plot")
# Why import refuses floats that csv shows: a damaged one may be so great or so small beside the
# others that no number that a configuration file can hold scales them.
SCALE = "the channel needs a multiplier or offset that a configuration file cannot hold"


class Answer:
    """What a command did: status, output, errors, processor time in seconds."""

    def __init__(self, words, limit):
        before = resource.getrusage(resource.RUSAGE_CHILDREN)
        child = subprocess.Popen(words, stdout=subprocess.PIPE, stderr=subprocess.PIPE,
                                 stdin=subprocess.DEVNULL)
        self.is_late = False
        try:
            self.out, said = child.communicate(timeout=limit)
        except subprocess.TimeoutExpired:
            child.kill()
            self.out, said = child.communicate()
            self.is_late = True
        after = resource.getrusage(resource.RUSAGE_CHILDREN)
        self.status, self.said = child.returncode, said.decode("utf-8", "replace")
        self.took = after.ru_utime + after.ru_stime - before.ru_utime - before.ru_stime

    def fault(self):
        """What no damage explains."""
        if self.is_late:
            return "hangs"
        if self.status not in (0, 1) or "AddressSanitizer" in self.said or "panicked" in self.said:
            return "status %d: %s" % (self.status, self.said.strip()[-400:])
        if self.status == 1 and not self.said.strip() and not self.out.strip():
            return "refused without a reason"
        return None


class Judge:
    """Runs a program over files in a folder."""

    def __init__(self, comtrade, folder, limit, seen):
        self.comtrade, self.folder, self.limit, self.seen = comtrade, folder, limit, seen

    def run(self, *words):
        return Answer([self.comtrade, *words], self.limit)

    def read(self, answer, files, is_packed, plain):
        """What csv says of the files, against the model; packed files must have the undamaged
        content, or be refused."""
        if answer.status == 1:
            if answer.out:
                yield "csv: status 1, with output"
            if not is_packed and any(one.head.revision == 1999
                                     for one in read_plainly(files)) and "cff" not in files:
                yield "csv refuses plain files: " + answer.said.strip()[-200:]
            return
        keys = keys_of(answer.said)
        if is_packed:
            self.seen["packed, read as before"] += 1
            if answer.out != plain.out:
                yield "csv reads other content of a packed file"
        elif keys <= QUIET:
            yield from self.plainly(answer, files, keys)
        else:
            self.seen["read, repairs told"] += 1

    def plainly(self, answer, files, keys):
        found = read_plainly(files, keys | {"padding"})
        if not found and "years-2-digits" in keys:
            # (a year of two digits in a file of 1999: the model refuses it, and a note tells of it)
            self.seen["read, repairs told"] += 1
            return
        if not found:
            yield "csv reads files that aren't plain, and tells %s" % (sorted(keys) or "nothing")
            return
        wrong = []
        for record in found:
            rows = Rows(answer.out.decode("utf-8", "replace"), len(record.head.analog))
            wrong.append(list(with_model(record, rows, keys)))
            if not wrong[-1]:
                self.seen["read as the model"] += 1
                return
        yield from wrong[0]

    def checked(self, names, files):
        """`check` finds no error if and only if the files are a plain pair of 1999."""
        answer = self.run("check", *names)
        fault = answer.fault()
        is_plain = "cff" not in files and any(one.head.revision == 1999
                                              for one in read_plainly(files))
        if fault or (answer.status == 0) != is_plain:
            yield "check: %s, status %d, plain %s: %s" % (fault, answer.status, is_plain,
                                                          answer.out[:300])

    def viewed(self, names, words, csv):
        """A view by chance."""
        answer = self.run(*words, *(names[:1] if words[0] in ("list", "events") else names))
        fault = answer.fault()
        if fault:
            yield "%s: %s" % (" ".join(words), fault)
        elif answer.status != csv.status and not (csv.status == 0
                                                  and " ".join(words).startswith(CHOOSY)):
            yield "csv: status %d, %s: status %d: %s" % (csv.status, " ".join(words),
                                                         answer.status, answer.said.strip()[-200:])

    def imported(self, names, csv):
        """What import writes is faultless by check, and it tells the same repairs as csv. It reads
        what csv reads, but for floats that a written pair cannot hold."""
        new = os.path.join(self.folder, "new")
        answer = self.run("import", *names, new)
        fault = answer.fault()
        there = [os.path.exists(new + ending) for ending in (".cfg", ".dat")]
        is_told = "`comtrade import` cannot read it" in csv.said
        is_float = csv.status == 0 and "kind-float32" in keys_of(csv.said)
        is_unscaled = is_float and answer.status == 1 and SCALE in answer.said
        is_other = answer.status != csv.status and not is_told and not is_unscaled
        if fault or is_other or there != [answer.status == 0] * 2:
            yield "import: %s, status %d, csv %d, files %s" % (
                fault, answer.status, csv.status, there)
        elif answer.status == 0:
            told = keys_of(answer.out.decode("utf-8", "replace")) ^ keys_of(csv.said)
            if told - UNTOLD - OF_SIZE:
                yield "import tells other notes than csv: %s" % sorted(told)
            done = self.run("check", new)
            if done.status != 0:
                yield "import wrote a pair with an error: %s" % done.out[:200]
        for ending in (".cfg", ".dat"):
            if os.path.exists(new + ending):
                os.remove(new + ending)
