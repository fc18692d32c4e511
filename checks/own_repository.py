#!/usr/bin/env python3
"""Lays out a repository of one's own as README.md says, with the program that stands there, and runs the program unproved.

    checks/own_repository.py
"""

import re
import subprocess
import tempfile

from built import ROOT, conclude

PAGE = (ROOT / "README.md").read_text()
SUM = re.search(r'\{sum\}"\)\?;    // (\d+)', PAGE).group(1)


def ran(words, folder):
    return subprocess.run(words, cwd=folder, capture_output=True, text=True)


def findings():
    program = re.search(r"```rust\n(#!\[tactic.*?)```", PAGE, re.DOTALL).group(1)
    laid_out = re.search(r"```sh\n(library=.*?cd crates/sums\n)", PAGE, re.DOTALL).group(1)
    with tempfile.TemporaryDirectory() as folder:
        commands = laid_out.replace("$PWD", f"'{ROOT}'").replace("../sums", "sums")
        done = ran(["bash", "-euc", commands], folder)
        yield "the commands of README.md lay out a repository", (done.returncode, done.stderr), (0, "")
        crate = f"{folder}/sums/crates/sums"
        with open(f"{crate}/src/main.rt", "w") as file:
            file.write(program)
        lines = (f"{folder}/sums/crates.txt", ran([ROOT / "checks" / "vendor.sh", "."], f"{folder}/sums").returncode)
        yield "the library is copied once more, and the own line stays last", (lines[1], open(lines[0]).read().splitlines()[-1]), (0, "sums: mohairjade anyhow")
        tried = ran(["rt", "try"], crate)
        yield "its program runs", (tried.returncode, SUM in tried.stdout.splitlines()), (0, True)


if __name__ == "__main__":
    conclude(findings())
