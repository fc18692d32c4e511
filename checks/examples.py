#!/usr/bin/env python3
"""Runs the built program over each file of examples/, and compares what it writes and its status.

    checks/examples.py

Each file runs with 1, 2, 7 and 64 workers, at target 1 and at the default, and with 3 and 5 at targets between. `NAME.answer` is the standard output of a run with
status 0; `NAME.error` has the line on standard error, and on a second line the status. The tour's page has a row for each, with
its answer. The program has to be built before (`rt run` in crates/pstream).
"""

import itertools
import sys

from built import EXAMPLES, conclude, need_program, run

PAIRS = [*itertools.product(["1", "2", "7", "64"], ["1", "0"]), ("3", "3"), ("5", "17"), ("3", "1000"), ("5", "0")]
SETTINGS = [["--workers", workers, "--target", target] for workers, target in PAIRS]


def wanted(file):
    """The end that a file's run has to have: status, standard output, standard error."""
    answer, error = file.with_suffix(".answer"), file.with_suffix(".error")
    if answer.exists() == error.exists():
        sys.exit(f"{file.name}: it has to have an answer or an error, and not both")
    if answer.exists():
        return 0, answer.read_bytes(), b""
    line, status = error.read_text().splitlines()
    return int(status.removeprefix("status ")), b"", f"{line}\n".encode()


def rows_of(file, end, page):
    """How many rows of the tour's page have the file with its answer."""
    _, out, err = end
    begins, ends = f"| [{file.stem}]({file.name}) | ", f" | `{(out or err).decode().rstrip()}` |"
    return sum(line.startswith(begins) and line.endswith(ends) for line in page)


def findings():
    """For each example its rows in the tour and its ends with all settings, each with what was wanted."""
    page = (EXAMPLES / "README.md").read_text().splitlines()
    files = sorted(EXAMPLES.glob("*.pipeline"))
    yield "there are examples", bool(files), True
    for file in files:
        end = wanted(file)
        ends = [(words, run([file, *words])) for words in SETTINGS]
        yield file.stem, (rows_of(file, end, page), [found for found in ends if found[1] != end]), (1, [])
    strays = {path.stem for path in EXAMPLES.iterdir() if path.is_file()} - {file.stem for file in files} - {"README"}
    yield "no answer without a pipeline", strays, set()


def main():
    need_program()
    conclude(findings())


if __name__ == "__main__":
    main()
