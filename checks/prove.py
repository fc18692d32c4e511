#!/usr/bin/env python3
"""Proves some functions of a crate within a minute or two, over libraries whose own proofs are holes: what one waits for while writing a proof.

    checks/prove.py CRATE [FUNCTION..] [--test]

FUNCTION is the check's name of a function without the crate's, as `segments::Extent::next` or `barred::BarredPlumbing::make_list`: of an impl's method the type and
the trait, with those of its arguments that aren't the impl's own, in one word. Without any it lists the crate's names. With --test FUNCTION may be one of the
crate's tests. Run it at the top of the repository; no library needs to be built. It prints what the check says of these functions: open goals, and the names that
their answers may use, and ends with status 0 where it proved them all. It is no verdict, since it takes each library at its word:
`rt check` gives one.

What was checked of the libraries is kept in a folder of the temporary folder, so that a second run takes seconds.
"""

import os
import pathlib
import re
import shutil
import subprocess
import sys
import tempfile

import wrong_bodies
from wrong_bodies import RT

QUIET = ("statements ", "libraries ", "logic: ", "rt: ")
PROVED = (": proved", ": no holes", ": proved, over holes")


def lay_out(crate, room):
    """Puts a copy of a library, with a hole for each proof, where an earlier run left one, and touches no file that stays as it was."""
    with wrong_bodies.with_holes(crate, set(), wrong_bodies.Pack(crate)) as holed:
        made, left = pathlib.Path(holed.folder), pathlib.Path(room, crate.name)
        files = {it.relative_to(made) for it in made.rglob("*") if it.is_file()}
        for file in files:
            target = left / file
            if not target.is_file() or target.read_bytes() != (made / file).read_bytes():
                target.parent.mkdir(parents=True, exist_ok=True)
                shutil.copyfile(made / file, target)
        for file in [it for it in left.rglob("*") if it.is_file() and it.relative_to(left) not in files]:
            file.unlink()


def told(said, crate, room):
    """What a check says of the crate itself, without the goals of the libraries' holes."""
    is_own = True
    for line in said.splitlines():
        # (what goes with a line stands indented behind it)
        is_own = is_own if line.startswith(" ") else not line.startswith((*QUIET, str(room)))
        if is_own and not (line.startswith("fn ") and not line.startswith(f"fn {crate}::")):
            yield re.sub(r": depends on a hole in .*", ": proved, over holes", line)


def main():
    words = [it for it in sys.argv[1:] if it != "--test"]
    if not words:
        sys.exit(__doc__)
    RT.rtlib.guarded()
    crate = next((it for it in RT.rtlib.crates_below(os.getcwd()) if it.name == words[0]), None)
    if not crate:
        sys.exit(f"there is no crate {words[0]} here")
    if len(words) == 1:
        return print(*map(wrong_bodies.path_of, wrong_bodies.functions_in(crate)), sep="\n")
    room = pathlib.Path(tempfile.gettempdir(), f"prove-{crate.name}")
    room.mkdir(exist_ok=True)
    for library in crate.below():
        lay_out(library, room)
    flags = ["--jobs", "1", "--allow-holes", "--incremental", f"{room}/kept"]
    flags += [word for it in words[1:] for word in ("--only", it)] + [it for it in sys.argv if it == "--test"]
    asked = crate.words(flags, keeps=False, as_source=True)
    laid = {f"={it.folder}/src/lib.rt": f"={room}/{it.name}/src/lib.rt" for it in crate.below()}
    for old, new in laid.items():
        asked = [it.replace(old, new) for it in asked]
    how = {"cwd": crate.folder, "stdin": subprocess.DEVNULL, "stdout": subprocess.PIPE, "stderr": subprocess.STDOUT, "text": True}
    said = subprocess.run([*RT.rtlib.guarded(), RT.rtlib.RATTLE, "check", *asked], **how)
    lines = [*told(said.stdout, crate.name, room)]
    print(*lines, sep="\n")
    own = [it for it in lines if it.startswith(f"fn {crate.name}::")]
    sys.exit(not own or not all(it.endswith(PROVED) for it in own))


if __name__ == "__main__":
    main()
