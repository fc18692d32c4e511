#!/usr/bin/env python3
"""Compares the programs of crates/ with their Java twins in examples/from-java: the answers, and that ours has at most twice the lines.

    checks/from_java.py

The stored output of ours, which `rt ci` compares with what the program prints, stands beside what Java prints of the same input. Lines are those of
src, specs and proofs that are neither empty nor a comment. Where Java is missing the answers are left out, and that is told.
"""

import re
import shutil
import subprocess
import tempfile

from built import EXAMPLES, ROOT, conclude

TWINS = EXAMPLES / "from-java"
# what has no twin: Java has no driver of SQLite
ASIDE = {"table.rt"}


def lines_of(files):
    """How many lines say something."""
    lines = [line.strip() for file in files for line in file.read_text().splitlines()]
    return sum(bool(line) and not line.startswith(("//", "/*", "*", "--")) for line in lines)


def plain(text):
    """A text with neither the quotes of debug output nor Java's sign between key and value."""
    return re.sub(r'(?<=[{ ,])"([^"]*)":', r"\1:", text).replace("=", ": ") if "{" in text else text


def findings():
    for twin in sorted(TWINS.glob("*.java")):
        crate = ROOT / "crates" / twin.stem.lower()
        ours = [file for part in ("src", "specs", "proofs") for file in (crate / part).rglob("*") if file.suffix in (".rt", ".antt") and file.name not in ASIDE]
        counts = lines_of(ours), lines_of([twin])
        yield f"{crate.name}: {counts[0]} lines, {counts[1]} in Java", counts[0] <= 2 * counts[1], True
    if not shutil.which("javac"):
        print("left out: the answers, since there is no javac")
        return
    with tempfile.TemporaryDirectory() as folder:
        subprocess.run(["javac", "-d", folder, *TWINS.glob("*.java")], check=True)
        for twin in sorted(TWINS.glob("*.java")):
            crate = ROOT / "crates" / twin.stem.lower()
            given = crate / "stdin"
            done = subprocess.run(["java", "-cp", folder, twin.stem], input=given.read_bytes() if given.exists() else b"", capture_output=True)
            ours = (crate / "stdout").read_text()
            pairs = zip(plain(ours).splitlines(), plain(done.stdout.decode()).splitlines(), strict=False)
            yield f"{crate.name}: the answers of Java", [pair for pair in pairs if pair[0] != pair[1]], []
            yield f"{crate.name}: as many lines", len(ours.splitlines()), len(done.stdout.splitlines())


if __name__ == "__main__":
    conclude(findings())
