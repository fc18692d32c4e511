#!/usr/bin/env python3
"""Tests checks/wrong_bodies.py on a small crate: a refused wrong body passes, and whatever only looks like one is told as failed.

Prints a line a case, and last `N passed, M failed`.
"""

import pathlib
import subprocess
import sys
import tempfile

from wrong_bodies import KEEPS

SCRIPT = pathlib.Path(__file__).resolve().parent / "wrong_bodies.py"
CODE = """//! Numbers that follow one another.
#![tactic(auto)]

ghost use Rattle.std.specs.Prelude.{◌≡◌, ◌+◌, ◌<◌};

const STEP: u8 = 5;

pub fn next(number: u8) -> u8
    requires { number < 9 }
    ensures { result ≡ number + 1 }
{
    number + 1
}

pub fn next_but_one(number: u8) -> u8
    requires { number < 8 }
    ensures { result ≡ number + 2 }
{
    next(next(number))
}

pub fn third(number: u8) -> u8
    requires { number < 7 }
    ensures { result ≡ number + 3 }
{
    number + 3
}

pub fn fourth(number: u8) -> u8
    requires { number < 6 }
    ensures { result ≡ number + 4 }
{
    number + 4
}

pub fn fifth(number: u8) -> u8
    requires { number < 5 }
    ensures { result ≡ number + 5 }
{
    number + STEP
}

pub fn fifth_again(number: u8) -> u8
    requires { number < 5 }
    ensures { result ≡ number + 5 }
{
    number + STEP
}

pub trait Counter {
    fn start(&self) -> u8
        ensures { result ≡ 1 }
    {
        1
    }
}
"""
# what each edit changes, with the function that it names where it names one, and how its line has to begin
EDITS = {
    "adds_two": ("    number + 1", "    number + 2", "sample/adds_two: refused: "),
    # (both in copies of the function that the first edit touches)
    "adds_two_in_turn": ("    number + 1", "    number + 1 + 1", "sample/adds_two_in_turn: refused: "),
    # (a trait's own method, and a copy of it)
    "starts_at_none": ("        1", "        0", "sample/starts_at_none: refused: "),
    "starts_at_two": ("        1", "        2", "sample/starts_at_two: refused: "),
    "adds_the_number": ("    number + 1", "    1 + number", "FAILED: sample/adds_the_number: NOT REFUSED"),
    "only_calls_what_is_refused": ("next(next(number))", "{ let first = next(number); next(first) }", "FAILED: sample/only_calls_what_is_refused: NOT REFUSED"),
    "changes_nothing": ("    number + 3", "    3 + number", "FAILED: sample/changes_nothing: NOT REFUSED"),
    "does_not_parse": ("    number + 4", "    number +", "FAILED: sample/does_not_parse: the edited text can't be read"),
    "stands_nowhere": ("    number + 9", "    number", "FAILED: sample/stands_nowhere: it can't be applied"),
    "steps_too_far": ("STEP: u8 = 5", "STEP: u8 = 6\nfunction: fifth", "sample/steps_too_far: refused: "),
    # (its text stands in two functions)
    "adds_one_more": ("number + STEP", "number + STEP + 1\nfunction: fifth_again", "sample/adds_one_more: refused: "),
    "adds_one_more_somewhere": ("number + STEP", "number + STEP + 1", "FAILED: sample/adds_one_more_somewhere: it can't be applied"),
    "names_no_function": ("STEP: u8 = 5", "STEP: u8 = 6\nfunction: sixth", "FAILED: sample/names_no_function: it can't be applied"),
}


def told(edits, *words):
    """What the script tells of these edits of the small crate, in lines, and its status."""
    with tempfile.TemporaryDirectory(prefix="test-wrong-bodies-") as root:
        crate = pathlib.Path(root, "crates", "sample")
        for folder in ("src", "wrong-bodies"):
            (crate / folder).mkdir(parents=True)
        pathlib.Path(root, "crates.txt").write_text("sample:\n")
        (crate / "src" / "lib.rt").write_text(CODE)
        for name, (old, new, _) in edits.items():
            (crate / "wrong-bodies" / f"{name}.edit").write_text(f"file: src/lib.rt\nold: {old}\nnew: {new}\n")
        ran = subprocess.run([sys.executable, SCRIPT, *words], cwd=root, stdout=subprocess.PIPE, text=True)
        return ran.stdout.splitlines(), ran.returncode


def main():
    # (where a text can't be read its pack is divided until it stands alone: a pack of two shows that for less)
    unread = {name: EDITS[name] for name in ("adds_two", "does_not_parse")}
    lines, status = told({name: edit for name, edit in EDITS.items() if name != "does_not_parse"}, "--anew")
    divided, _ = told(unread, "--anew")
    cases = {name: any(line.startswith(wanted) for line in (divided if name in unread else lines)) for name, (_, _, wanted) in EDITS.items()}
    cases |= {"the sums": [lines[-1], divided[-1]] == ["6 passed, 6 failed", "1 passed, 1 failed"], "the status": status == 1}
    again, _ = told({name: edit for name, edit in EDITS.items() if "FAILED" not in edit[2]})
    cases["what passed is kept, where the kit keeps it"] = [line.endswith(" (by an earlier run of the same)") for line in again[:-1]] == [KEEPS] * 6
    lines += divided + again
    for name, good in cases.items():
        print(f"{'ok' if good else 'FAILED'}: {name}")
    if not all(cases.values()):
        print(*lines, sep="\n")
    print(f"{sum(cases.values())} passed, {len(cases) - sum(cases.values())} failed")
    sys.exit(not all(cases.values()))


if __name__ == "__main__":
    main()
