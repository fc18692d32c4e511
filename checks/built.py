"""The built program, as the other scripts of this folder run it, and how they tell what they found."""

import os
import pathlib
import subprocess
import sys

ROOT = pathlib.Path(__file__).resolve().parent.parent
PSTREAM = ROOT / "crates" / "pstream" / "out" / "pstream"
EXAMPLES = ROOT / "examples"


def need_program():
    """Ends the script where the program isn't built."""
    if not PSTREAM.exists():
        sys.exit(f"{PSTREAM.relative_to(ROOT)} is missing: `rt ci` leaves it, and `rt run` in crates/pstream builds it")


def run(words, environment=None, **streams):
    """Status, standard output and standard error of one run, with these variables beside those of the script."""
    streams = {"stdout": subprocess.PIPE, "timeout": 60} | streams
    done = subprocess.run([PSTREAM, *words], stderr=subprocess.PIPE, env=os.environ | (environment or {}), **streams)
    return done.returncode, done.stdout or b"", done.stderr


def told_list(items):
    """The text of a list."""
    return f"[{', '.join(map(str, items))}]"


def told_map(entries):
    """The text of a map, from keys and values."""
    return f"{{{', '.join(f'{key}={value}' for key, value in entries)}}}"


def conclude(findings):
    """Prints a line for each name with what was found and what was wanted, and last `N passed, M failed`; ends the script."""
    counts = {True: 0, False: 0}
    for name, found, wanted in findings:
        good = found == wanted
        counts[good] += 1
        print(f"{'ok' if good else 'FAILED'}: {name}" + ("" if good else f": {found!r}, wanted {wanted!r}"), flush=True)
    print(f"{counts[True]} passed, {counts[False]} failed")
    sys.exit(counts[False] > 0)
