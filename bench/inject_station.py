"""A short recording of `dfrd` under strace, for dfrd-inject: what is recorded, and how."""

import fcntl
import os
import shutil
import subprocess
import tempfile
import termios
import time
from dataclasses import dataclass

import inject_judge as judge

HERE = os.path.dirname(os.path.abspath(__file__))
DFRD = os.path.abspath(os.environ.get("dfrd", f"{HERE}/../crates/dfrd/out/dfrd"))
CALLS = {
    "read": "read",
    "write": "write",
    "fsync": "fsync,fdatasync",
    "rename": "rename,renameat,renameat2",
    "unlink": "unlink,unlinkat",
    "openat": "openat",
    "stat": "statx,newfstatat",
    "list": "getdents64",
    "lock": "flock",
}
END, RETRIES = 5.0, 20.5  # how long the end may take, and how long a folder is tried then, seconds


@dataclass(frozen=True)
class Scenario:
    """What is recorded. Calls on files of these groups fail, from the first call on or once scans
    have come."""

    words: tuple
    fires: frozenset
    scans: int
    from_start: bool
    groups: tuple
    orders: str = ""


SCENARIOS = {
    # a start in a folder with what kills left; no record
    "start": Scenario(
        words=("--raw", "--keep", "5"),
        fires=frozenset(),
        scans=400,
        from_start=True,
        groups=("folder", "setup", "input", "orders"),
        orders="fifo",
    ),
    # two records, the second of which costs an old pair
    "records": Scenario(
        words=("--raw", "--keep", "2"),
        fires=frozenset((500, 1300)),
        scans=1900,
        from_start=False,
        groups=("folder", "input", "output"),
    ),
    # a record that is open when the input ends
    "end": Scenario(
        words=("--raw", "--keep", "1"),
        fires=frozenset((500,)),
        scans=600,
        from_start=False,
        groups=("folder", "output"),
    ),
    # lines instead of frames
    "lines": Scenario((), frozenset((500,)), 1200, False, ("input",)),
    # an operator's trigger, in a file and in a FIFO
    "file": Scenario(("--raw",), frozenset(), 400, False, ("orders",), "file"),
    "fifo": Scenario(("--raw",), frozenset(), 400, False, ("orders",), "fifo"),
}


@dataclass(frozen=True)
class Run:
    """A run: this call on files of this group fails with this error, the Nth time or from then on.
    Without an error nothing fails."""

    scenario: str
    group: str
    call: str
    error: str = ""
    when: int = 1
    lasting: bool = False

    def __str__(self):
        plus = "+" if self.lasting else ""
        return f"{self.scenario} {self.group} {self.call} {self.error} {self.when}{plus}"


def pair_of_earlier(number):
    return f"{judge.OLD}{number}"


def make_files(scenario, room):
    """Makes the files of a run. Returns the folder of records."""
    folder = f"{room}/records"
    os.mkdir(folder)
    with open(f"{room}/setup", "w") as file:
        file.write(judge.SETUP)
    os.mkfifo(f"{room}/scans")
    if scenario.orders == "fifo":
        os.mkfifo(f"{room}/orders")
    elif scenario.orders:
        open(f"{room}/orders", "w").close()
    ends = [(1, ".cfg", ".dat")]
    if scenario.from_start:  # what a kill may leave, and (5) what a loss of power may
        ends += [(2, ".cfg.part", ".dat"), (3, ".cfg.gone", ".dat"), (4, ".cfg.part", ".dat.part")]
        ends += [(5, ".cfg", ".dat.part")]
        open(f"{folder}/.dfrd.part", "w").close()
    for number, *names in ends:
        for end in names:
            with open(f"{folder}/{pair_of_earlier(number)}{end}", "w") as file:
                file.write(f"{number}{end[:4]}\n")
    return folder


def paths(scenario, room, group):
    """The files of this group."""
    if group != "folder":
        return [f"{room}/" + {"input": "scans", "output": "out"}.get(group, group)]
    names = [pair_of_earlier(n) for n in range(1, 6)]
    names += [judge.name_of(n, k) for n, k in enumerate(sorted(scenario.fires), 1)]
    ends = (".cfg", ".dat", ".cfg.part", ".dat.part", ".cfg.gone")
    files = ["", ".dfrd.part"] + [f"{name}{end}" for name in names for end in ends]
    return [f"{room}/records"] + [f"{room}/records/{file}" for file in files]


def strace_words(run, room):
    """strace, with the calls that fail. It traces the files of the group alone; with the folder
    also what is printed, which shows what was synced by then."""
    words = ["strace", "-f", "--quiet=all", "-y", "-s", "400", "-o", f"{room}/trace"]
    files = paths(SCENARIOS[run.scenario], room, run.group)
    if run.group == "folder" and run.call != "write":
        files.append(f"{room}/out")
    for path in files:
        words += ["-P", path]
    words += ["-e", "trace=" + ",".join(CALLS.values())]
    if run.error:
        plus = "+" if run.lasting else ""
        words += ["-e", f"inject={CALLS[run.call]}:error={run.error}:when={run.when}{plus}"]
    return words


class Station:
    """A running `dfrd`, its converter, and a program that looks into its folder meanwhile."""

    def __init__(self, run, room):
        self.run, self.scenario, self.room = run, SCENARIOS[run.scenario], room
        self.folder = make_files(self.scenario, room)
        self.tracing = strace_words(run, room)
        self.handed, self.half, self.tracer = 0, None, None
        self.words = [DFRD, "--quiet", "--start", str(judge.START), *self.scenario.words]
        if self.scenario.orders:
            self.words += ["--orders", f"{room}/orders"]
        self.words += [f"{room}/setup", self.folder]

    def told(self, name="out"):
        with open(f"{self.room}/{name}") as file:
            return file.read()

    def start(self, before=()):
        end = os.open(f"{self.room}/scans", os.O_RDONLY | os.O_NONBLOCK)
        self.scans = os.open(f"{self.room}/scans", os.O_WRONLY)
        os.set_blocking(end, True)
        with open(f"{self.room}/out", "w") as out, open(f"{self.room}/err", "w") as err:
            words = [*before, *self.words]
            self.child = subprocess.Popen(words, stdin=end, stdout=out, stderr=err)
        os.close(end)

    def attach(self):
        """Lets strace trace all threads, which run already."""
        none, process = subprocess.DEVNULL, str(self.child.pid)
        self.tracer = subprocess.Popen([*self.tracing, "-p", process], stdout=none, stderr=none)
        if not self.until(self.is_traced, 20) and self.child.poll() is None:
            raise SystemExit("strace can't attach to dfrd: it may need to run as root")

    def is_traced(self):
        for task in os.listdir(f"/proc/{self.child.pid}/task"):
            try:
                with open(f"/proc/{self.child.pid}/task/{task}/status") as file:
                    if "TracerPid:\t0\n" in file.read():
                        return False
            except FileNotFoundError:  # (the thread has ended meanwhile)
                pass
        return True

    def look(self):
        half = judge.half_pair(self.folder)
        if half and half != pair_of_earlier(5) + ".cfg":
            self.half = half

    def until(self, holds, seconds):
        """Waits until this holds, the program has ended or so many seconds have passed."""
        end = time.monotonic() + seconds
        while time.monotonic() < end and self.child.poll() is None:
            if holds():
                return True
            self.look()
            time.sleep(0.002)
        return False

    def hand(self, count):
        """Hands over so many scans in two pieces, the first of which ends within a scan."""
        text = b"".join(self.scan(k) for k in range(self.handed, self.handed + count))
        self.handed += count
        for piece in (text[:-3], text[-3:]):
            try:
                os.write(self.scans, piece)
            except BrokenPipeError:
                return
            self.until(lambda: self.is_read() or "input broken" in self.told(), 2)

    def is_read(self):
        waiting = fcntl.ioctl(self.scans, termios.FIONREAD, b"\0" * 4)
        return waiting == b"\0" * 4

    def scan(self, k):
        given = judge.values(k, self.scenario.fires)
        if "--raw" in self.words:
            numbers = given or (0, 2 * judge.RANGE, 0)
            return b"".join((n & 0xFFFF).to_bytes(2, "little") for n in numbers)
        return b"scan %d,%d/%d\n" % given if given else b"lost\n"

    def order(self):
        """A second of scans, an operator's trigger, and enough scans after it."""
        end = time.monotonic() + 1
        while time.monotonic() < end:
            self.hand(20)
            self.until(lambda: False, 0.02)
        orders = os.open(f"{self.room}/orders", os.O_RDWR | os.O_APPEND)
        os.write(orders, b"trigger\n")
        self.until(lambda: "operator at" in self.told(), 4)
        os.close(orders)
        self.hand(400)

    def play(self):
        """The whole recording. Notes how many seconds after its input the program ended."""
        if self.scenario.from_start:
            self.start(["strace", "-D", *self.tracing[1:]])
            self.until(lambda: " start " in self.told(), 1)
        else:
            self.start()
            self.hand(100)
            self.until(lambda: " start " in self.told(), 10)
            self.attach()
        while self.handed < self.scenario.scans:
            self.hand(200)
        if self.scenario.orders and not self.scenario.from_start:
            self.order()
        os.close(self.scans)
        closed = time.monotonic()
        self.until(lambda: False, END + RETRIES)
        self.took = time.monotonic() - closed
        self.child.kill()
        self.child.wait()
        if self.tracer:
            self.tracer.wait(20)
        self.look()

    def next_start_faults(self):
        """What is left of half pairs after the next start, and pairs that it took away."""
        before = {n[:-4] for n in os.listdir(self.folder) if n.endswith(".cfg")}
        words = [DFRD, "--check", f"{self.room}/setup", self.folder]
        subprocess.run(words, stdin=subprocess.DEVNULL, capture_output=True, timeout=60)
        for name in judge.leftovers(self.folder):
            yield f"{name} is left after the next start"
        for name in before:
            if not os.path.exists(f"{self.folder}/{name}.cfg"):
                yield f"{name} is gone after the next start"
        for number in (1, 2, 5) if self.scenario.from_start else ():
            for end in (".cfg", ".dat"):
                path = f"{self.folder}/{pair_of_earlier(number)}{end}"
                if not os.path.exists(path) or judge.content(path) != f"{number}{end}\n":
                    yield f"{path} isn't whole after the next start"

    def is_untold(self):
        """Whether a failure of the folder left no word. An interrupted call is repeated; a file
        whose size can't be found only counts as empty."""
        if self.run.group != "folder" or self.run.error in ("", "EINTR", "EAGAIN"):
            return False
        told = self.told()
        is_told = self.told("err") or "trouble" in told or "removed" in told
        return self.run.call != "stat" and not is_told

    def text_faults(self):
        """What is wrong with the printed lines and the records."""
        text, folder, fires = self.told(), self.folder, self.scenario.fires
        end = judge.END.search(text)
        came = int(end[1]) if end and "input broken" in text else self.handed
        yield from judge.scan_faults(text, self.handed, fires)
        yield from judge.record_faults(text, folder, fires, came)
        yield from judge.removed_faults(text, self.told("err"), folder)
        if self.run.group == "folder" and self.run.call != "write":
            yield from judge.sync_faults(f"{self.room}/trace", f"{self.room}/out", folder)

    def silent_faults(self):
        """What is wrong with the records of a run that can't print."""
        for number, k in enumerate(sorted(self.scenario.fires), 1):
            path = f"{self.folder}/{judge.name_of(number, k)}"
            extent = (k - judge.PRE, k, k + judge.POST)
            if number == len(self.scenario.fires) or "--raw" not in self.words:
                yield judge.pair_fault(path, extent, self.scenario.fires, self.handed)

    def faults(self):
        """All that is wrong with a run that has ended."""
        is_mute = self.run.group == "output" and self.run.lasting
        limit = END + (RETRIES if self.run.lasting and self.run.group == "folder" else 0)
        if self.took > limit:
            yield f"it had not ended after {limit:.0f} seconds"
        if self.half:
            yield f"{self.half} was there without its .dat"
        if is_mute:
            yield None if self.child.returncode == 0 else f"the status is {self.child.returncode}"
            yield from self.silent_faults()
        else:
            errors = self.told("err")
            yield judge.status_fault(self.told(), errors, self.child.returncode)
            if " start " in self.told():
                yield from self.text_faults()
        if self.is_untold():
            yield "the failure left no word"
        yield from self.next_start_faults()

    def happened(self):
        """What happened, in words."""
        text = self.told()
        if "input broken" in text:
            return "`input broken`, status 1"
        if self.run.group == "output" and self.run.lasting:
            return "lines lost, records whole"
        if " start " not in text:
            return "refused to start, with a reason"
        if "unwritten" in text:
            return "`unwritten`, status 1"
        if "trouble over" in text:
            return "`trouble`, then written"
        if any(judge.younger_removed(text, self.folder)):
            return "a younger pair removed, reported"
        return "nothing lost, reported" if self.told("err") else "nothing lost"


@dataclass
class Result:
    run: Run
    came: bool  # whether the failure came
    happened: str
    faults: list
    trace: str
    shown: str  # what a person wants to see of the run


def result_of(run):
    """Makes a run and judges it."""
    room = tempfile.mkdtemp(prefix="dfrd-inject-")
    try:
        station = Station(run, room)
        station.play()
        with open(f"{room}/trace", errors="replace") as file:
            trace = file.read()
        shown = [" ".join(station.tracing + station.words), trace + station.told(), "on error:"]
        shown += [station.told("err"), "files:", *sorted(os.listdir(station.folder))]
        shown += [f"status {station.child.returncode}, {station.took:.1f} s after its input"]
        faults = [fault for fault in station.faults() if fault]
        came = "(INJECTED)" in trace
        return Result(run, came, station.happened(), faults, trace, "\n".join(shown))
    finally:
        shutil.rmtree(room)
