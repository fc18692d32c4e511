#!/usr/bin/env python3
"""Runs the parts of .ci/run one after another, and tells at the end what each took.

    checks/timed.py COMMAND..

Each COMMAND is one word of the shell's, as `'rt ci'`, and ends by a line `N passed, M failed`. The parts run in the folder in which
this script was started; the first that fails ends the run. Last come a table of the processor minutes of each crate (read
each second of the running checks), the wall and processor minutes of each part, its sum, how loaded the machine was, and alone on the last
line the sum of all. A processor second of a loaded machine does less: the load is told by the share of time that the machine's host took
away, and by a short fixed loop, which is timed again and again beside the least that it took.
"""

import collections
import contextlib
import os
import pathlib
import re
import resource
import shlex
import subprocess
import sys
import threading
import time

CLOSING = re.compile(r"(\d+) passed, (\d+) failed")
KINDS = ("proof", "tests", "must-fail", "wrong bodies")
TICKS = os.sysconf("SC_CLK_TCK")
READ_EACH = 1
SPEED_EACH = 20


def parents_of(number):
    """The numbers of the processes above one."""
    above = []
    while number not in ("0", "1"):
        number = pathlib.Path("/proc", number, "stat").read_text().rpartition(")")[2].split()[1]
        above.append(number)
    return above


Check = collections.namedtuple("Check", "crate kind seconds")


def check_of(process):
    """The check of this run that a process is, with the seconds that it took until now; None of any other process."""
    words = (process / "cmdline").read_bytes().decode(errors="replace").split("\0")
    if not words[0].endswith("/rattle") or "--crate-name" not in words:
        return None
    stat = (process / "stat").read_text().rpartition(")")[2].split()
    above = parents_of(process.name)
    if str(os.getpid()) not in above or pathlib.Path("/proc", stat[1], "cmdline").read_bytes().startswith(words[0].encode()):
        # (another's, or a copy that a check made of itself: its time comes to the check's own)
        return None
    folder = os.path.basename(os.readlink(process / "cwd"))
    between = [pathlib.Path("/proc", it, "cmdline").read_bytes() for it in above[: above.index(str(os.getpid()))]]
    is_wrong = any(b"wrong_bodies.py" in it for it in between)
    kind = "wrong bodies" if is_wrong else "must-fail" if folder.startswith("rt-edit-") else "tests" if "--test" in words else "proof"
    return Check(words[words.index("--crate-name") + 1], kind, sum(map(int, stat[11:15])) / TICKS)


class Checks:
    """Reads of the running checks, until told to end, how many seconds of a processor each took."""

    def __init__(self):
        self.seconds, self.over = {}, threading.Event()
        self.reader = threading.Thread(target=self.read, daemon=True)

    def read(self):
        while not self.over.wait(READ_EACH):
            for process in pathlib.Path("/proc").glob("[0-9]*"):
                # (a process may end, and its kept work go, while they are read)
                with contextlib.suppress(OSError, ValueError, IndexError):
                    found = check_of(process)
                    if found:
                        self.seconds[process.name, found.crate, found.kind] = found.seconds

    def table(self):
        """A line a crate, with its minutes of each kind, the dearest first."""
        sums = collections.defaultdict(lambda: dict.fromkeys(KINDS, 0))
        for (_, crate, kind), seconds in self.seconds.items():
            sums[crate][kind] += seconds / 60
        lines = sorted(sums.items(), key=lambda it: -sum(it[1].values()))
        width = max((len(it) for it in sums), default=0)
        yield " ".join([f"{'processor minutes':{width}}", *(f"{it:>12}" for it in (*KINDS, "sum"))])
        for crate, by_kind in lines:
            yield " ".join([f"{crate:{width}}", *(f"{it:12.1f}" for it in (*by_kind.values(), sum(by_kind.values())))])


def host_share(before, after):
    """The share of the processors' time that the machine's host took away, between two readings of /proc/stat."""
    spent = [late - early for early, late in zip(before, after)]
    return spent[7] / max(1, sum(spent[:8]))


def processor_times():
    return [*map(int, pathlib.Path("/proc/stat").read_text().split("\n")[0].split()[1:])]


class Machine:
    """How loaded the machine is, until told to end."""

    def __init__(self):
        self.before, self.loops, self.over = processor_times(), [], threading.Event()
        self.timer = threading.Thread(target=self.time_loops, daemon=True)

    def time_loops(self):
        while not self.over.wait(SPEED_EACH if self.loops else 0):
            started = time.thread_time()
            for _ in range(500_000):
                pass
            self.loops.append(time.thread_time() - started)

    def told(self, minutes):
        """Says what so many processor minutes come to, where the fixed loop runs as fast as it ever did."""
        taken = host_share(self.before, processor_times())
        slower = sum(self.loops) / len(self.loops) / min(self.loops)
        return (
            f"load: {os.cpu_count()} processors, {taken:.0%} of their time taken by the host; a fixed loop took {slower:.2f} times its least,"
            f" so {minutes:.1f} minutes of a processor are some {minutes / slower:.1f} at its best"
        )


def processor_seconds():
    used = resource.getrusage(resource.RUSAGE_CHILDREN)
    return used.ru_utime + used.ru_stime


def run(command):
    """Runs one part, and answers its status and its closing line's two numbers."""
    found = None
    with subprocess.Popen(shlex.split(command), stdout=subprocess.PIPE, text=True, errors="replace") as part:
        for line in part.stdout:
            found = CLOSING.fullmatch(line.rstrip("\n")) or found
            print(line, end="", flush=True)
    passed, failed = map(int, found.groups()) if found else (0, 1)
    return part.returncode, passed, failed


def main():
    checks, machine, told, sums = Checks(), Machine(), [], [0, 0]
    checks.reader.start()
    machine.timer.start()
    for command in sys.argv[1:]:
        started, used = time.monotonic(), processor_seconds()
        status, passed, failed = run(command)
        failed += status != 0 and failed == 0
        minutes = (time.monotonic() - started) / 60, (processor_seconds() - used) / 60
        told.append(f"{command}: {passed} passed, {failed} failed; {minutes[0]:.1f} minutes, {minutes[1]:.1f} of a processor")
        sums = [sums[0] + passed, sums[1] + failed]
        if failed:
            break
    checks.over.set()
    machine.over.set()
    print(*checks.table(), *told, machine.told(processor_seconds() / 60), f"{sums[0]} passed, {sums[1]} failed", sep="\n")
    sys.exit(sums[1] > 0)


if __name__ == "__main__":
    main()
