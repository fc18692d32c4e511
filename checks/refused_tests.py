#!/usr/bin/env python3
"""Refuses the requests for memory of a library's tests in turn, and the starts of threads: a test has to pass still, or to end in a want of memory.

    checks/refused_tests.py [--most N] CRATE..

CRATE is a library; its tests are the module of_CRATE in a crate of tests, and have to be built before (`rt ci` leaves them built, and so does
`rt test` in that crate). Memory is refused by a small library of this folder (refusing.py): one request a run, the first, the second, and so
on to the last that the test makes; of a test with more requests than the most, 1,000 if nothing else is said, so many of the first, and of the
starts of threads the first 64. Each test's line tells how many were refused, and of how many; where all are tried, so many are wanted.
"""

import argparse
import pathlib
import subprocess
import sys

from built import conclude
from refusing import MEMORY, THREAD, Refusing

CRATES = pathlib.Path(__file__).resolve().parent.parent / "crates"
MOST_THREADS = 64
WANTS = ("NoMemory", "AllocError", "AllocFailed")


def is_want_of_memory(run):
    """Whether a failed test ended by an error of memory, and by no assertion: a `Fail` is told as `error: `, any other error of a test as `Error: `."""
    errors = [line for line in (run.out + run.err).decode(errors="replace").splitlines() if line.startswith(("error: ", "Error: "))]
    return len(errors) == 1 and any(want in errors[0] for want in WANTS)


def findings(crate, program, test, refusing, most):
    """Of each kind of request, how many were refused, and each refusal that the test answers by anything but its result or a want of memory."""
    ample = refusing.run([program, test])
    if ample.status != 0:
        yield f"{crate} {test}: with ample memory", ample.out + ample.err, b""
        return
    for kind, made, tried in [(MEMORY, ample.requests, min(ample.requests, most)), (THREAD, ample.threads, min(ample.threads, MOST_THREADS))]:
        runs = refusing.run_each([program, test], b"", kind, range(1, tried + 1))
        others = [(number, it.out + it.err) for number, it in runs if it.status != 0 and not is_want_of_memory(it)]
        refused = sum(it.refused for _, it in runs)
        # (with threads a run may make fewer requests than another)
        is_whole = refused == tried or ample.threads > 0
        if made:
            yield f"{crate} {test}: {refused} of {made} refused ({kind})", (others, is_whole), ([], True)


def program_with(crate):
    """The built tests among which those of a library are."""
    holds = lambda folder: (folder / f"of_{crate}.rt").exists() or (folder / f"of_{crate}" / "mod.rt").exists()
    found = [it.parent for it in CRATES.glob("*_tests/src") if holds(it)]
    if not found:
        sys.exit(f"no crate of tests has a module of_{crate}")
    program = found[0] / "out" / f"{found[0].name}_tests"
    if not program.exists():
        sys.exit(f"{program.relative_to(CRATES.parent)} is missing: `rt ci` leaves it, and `rt test` in crates/{found[0].name} builds it")
    return program


def all_findings(crates, most):
    refusing = Refusing()
    for crate in crates:
        program = program_with(crate)
        listed = subprocess.run([program, "--list"], capture_output=True, text=True, check=True).stdout
        for line in listed.splitlines():
            if line.startswith(f"of_{crate}::") and line.endswith(": test"):
                yield from findings(crate, program, line.removesuffix(": test"), refusing, most)


def main():
    parser = argparse.ArgumentParser()
    parser.add_argument("--most", type=int, default=1000)
    parser.add_argument("crates", nargs="+")
    options = parser.parse_args()
    conclude(all_findings(options.crates, options.most))


if __name__ == "__main__":
    main()
