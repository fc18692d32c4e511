"""Runs of built programs in which requests for memory or starts of threads are refused, by a small library that is loaded before C's."""

import collections
import concurrent.futures
import os
import pathlib
import shutil
import subprocess
import sys

CHECKS = pathlib.Path(__file__).resolve().parent
BUILT = CHECKS / "out"
MEMORY, THREAD = "REFUSED_REQUEST", "REFUSED_THREAD"

# the end of a run, how many requests for memory it made, how many starts of threads, how many of both were refused, and the most bytes that
# lived at a time, and those that live at the end
Run = collections.namedtuple("Run", "status out err requests threads refused peak live")


class Refusing:
    """The library, built anew by `rustc`."""

    def __init__(self):
        BUILT.mkdir(exist_ok=True)
        self.library = BUILT / "librefuse_memory.so"
        if not shutil.which("rustc"):
            sys.exit("rustc, which builds the library that refuses memory, is not on the path")
        words = ["rustc", "--edition", "2024", "-O", "-C", "panic=abort", "--crate-type", "cdylib", "-o", self.library]
        subprocess.run([*words, CHECKS / "refuse_memory.rs"], check=True)

    def run(self, words, file=b"", **refused):
        """One run with these bytes on standard input, and what is refused."""
        told, told_on = os.pipe()
        variables = {"LD_PRELOAD": str(self.library), "TOLD_ON": str(told_on)} | {name: str(number) for name, number in refused.items()}
        done = subprocess.run(words, input=file, capture_output=True, env=os.environ | variables, pass_fds=[told_on], timeout=60)
        os.close(told_on)
        with open(told, "rb") as counts:
            found = [int(it) for it in counts.read().split()]
        # (a program that was killed tells nothing)
        return Run(done.returncode, done.stdout, done.stderr, *(found if len(found) == 5 else [0] * 5))

    def run_each(self, words, file, kind, numbers):
        """For each number a run in which the request of that number is refused."""
        with concurrent.futures.ThreadPoolExecutor(os.cpu_count()) as side_by_side:
            runs = side_by_side.map(lambda number: self.run(words, file, **{kind: number}), numbers)
            return list(zip(numbers, runs))
