#!/usr/bin/env python3
"""Shows what examples/why/README.md says: what parallel streams elsewhere get wrong, and what stands here in its place.

    checks/why.py

A small crate of two reduces that are wrong is laid out beside the repository's crates and checked, where `rt check` has checked
`mohairjade` in this checkout: `rt ci` by itself leaves nothing that a check begins with, and it would prove all the crates below. The built program, Java 17 (`java`), plain Rust (`rustc`) and rayon (Debian's `librust-rayon-dev`, and `cargo`) run
the other files of that folder. What isn't installed is told, and what needs it is skipped.
"""

import os
import pathlib
import re
import resource
import shutil
import signal
import subprocess
import tempfile

from built import EXAMPLES, PSTREAM, ROOT, conclude, need_program

WHY = EXAMPLES / "why"
BUILT = pathlib.Path(__file__).resolve().parent / "out"
RAYON = pathlib.Path("/usr/share/cargo/registry")
MANIFEST = """[package]
name = "reduce"
version = "0.1.0"
edition = "2021"
[[bin]]
name = "reduce"
path = "{file}"
[dependencies]
rayon = "1"
[profile.dev]
debug = false
"""
REGISTRY = """[source.crates-io]
replace-with = "installed"
[source.installed]
directory = "{folder}"
"""
# the crate that is checked, its files, and what the check says of each function
CRATE, STANDS_ON = "reduce", "mohairjade"
FILES = {"reduce.txt": "src/lib.rt", "minus.txt": "proofs/MinusOperatorI64/join/Answers.antt"}
VERDICTS = {
    "difference": "no proof: .*; `search` did not prove `reduce-requires-clause-associative`, `reduce-requires-clause-identity`",
    "sum_from_one": "no proof: .*; `search` did not prove `reduce-requires-clause-identity`",
}
# the sequential answers over 0 to 999
DIFFERENCE, SUM_FROM_ONE = "-499500", "499501"
MEMORY = 60 << 20
# seconds in which the program has to answer, and in which Java's parallel stream must not have
SOON, LONG = 1, 3


def ran(words, seconds=60, **settings):
    """Status, standard output and standard error of a command; where it doesn't end in so many seconds that stands for its status."""
    try:
        done = subprocess.run(words, capture_output=True, text=True, timeout=seconds, **settings)
    except subprocess.TimeoutExpired:
        return "no end", "", ""
    return done.returncode, done.stdout, done.stderr


def little_memory():
    """What `ulimit -v` does, of a process that begins."""
    resource.setrlimit(resource.RLIMIT_AS, (MEMORY, MEMORY))
    resource.setrlimit(resource.RLIMIT_CORE, (0, 0))


# A reduce that the check refuses.

def below(names):
    """The lines of crates.txt of some crates and of all that they stand on, by crate."""
    lines = dict(re.findall(r"^(\w+)\b(.*)$", (ROOT / "crates.txt").read_text(), re.MULTILINE))
    found, open_names = {}, names.split()
    while open_names:
        crate = open_names.pop()
        if crate in lines and crate not in found:
            found[crate] = f"{crate}{lines[crate]}"
            open_names += lines[crate].partition(":")[2].split()
    return found


def verdicts():
    """What a check of the small crate says of each of its functions, or last of all where it doesn't come to them."""
    # (a folder that a killed run leaves in the checkout would stop `rt ci`, and names of files stay on one file system)
    apart = os.stat(tempfile.gettempdir()).st_dev != os.stat(ROOT).st_dev
    with tempfile.TemporaryDirectory(dir=BUILT if apart else None) as folder:
        work = pathlib.Path(folder)
        crates = below(STANDS_ON)
        for text, file in FILES.items():
            place = work / "crates" / CRATE / file
            place.parent.mkdir(parents=True)
            shutil.copy(WHY / text, place)
        for crate in crates:
            # (other names of the same files: `rt` never writes into one, and copies would take gigabytes)
            shutil.copytree(ROOT / "crates" / crate, work / "crates" / crate, copy_function=os.link, ignore=shutil.ignore_patterns("incremental"))
        (work / "crates.txt").write_text("\n".join([*crates.values(), f"{CRATE}: {STANDS_ON}", ""]))
        shutil.copy(ROOT / "HANDLES", work)
        subprocess.run(["git", "init", "--quiet", work], check=True)
        _, out, err = ran(["rt", "check", "--jobs", "1"], seconds=1200, cwd=work / "crates" / CRATE)
    found = dict(re.findall(rf"^fn {CRATE}::(\w+): (.*)", out + err, re.MULTILINE))
    return {name: found.get(name, (out + err)[-500:]) for name in VERDICTS}


def reduces():
    """The check of each function: the right one is proved, the others miss the clause that they break."""
    for name, told in verdicts().items():
        wanted = VERDICTS[name]
        yield f"the check of `{name}`", wanted if re.fullmatch(wanted, told) else told, wanted


def wrong_answers(side, told):
    """Two lines of answers: the sequential ones are right, and the parallel ones differ from them, with no word."""
    status, out, err = told
    answers = re.findall(r": (-?\d+), sequential: (-?\d+)", out)
    yield f"{side}: its end", (status, err), (0, "")
    yield f"{side}: sequential answers", [right for _, right in answers], [DIFFERENCE, SUM_FROM_ONE]
    yield f"{side}: parallel answers differ: {', '.join(it for it, _ in answers)}", [wrong != right for wrong, right in answers], [True, True]


def rayon_answers():
    """What rayon's reduce answers."""
    folder = BUILT / "rayon"
    (folder / ".cargo").mkdir(parents=True, exist_ok=True)
    (folder / "Cargo.toml").write_text(MANIFEST.format(file=WHY / "reduce.rs"))
    (folder / ".cargo" / "config.toml").write_text(REGISTRY.format(folder=RAYON))
    status, _, err = ran(["cargo", "build", "--offline", "--quiet"], seconds=300, cwd=folder)
    yield "rayon: it builds", (status, err), (0, "")
    yield from wrong_answers("rayon", ran([folder / "target" / "debug" / "reduce"]))


# The program.

def program():
    """A first item soon, a want of memory told, and one answer whatever the workers."""
    yield "the first of 2^62 numbers", ran([PSTREAM, WHY / "first.pipeline"], seconds=SOON), (0, "Optional[0]\n", "")
    yield "three that differ of 2^62 numbers", ran([PSTREAM, WHY / "distinct.pipeline"], seconds=SOON), (0, "[0, 1, 2]\n", "")
    wanted = (3, "", "out of memory\n")
    yield "a list of ten million numbers in 60 MB", ran([PSTREAM, WHY / "list.pipeline"], preexec_fn=little_memory), wanted
    groups = {}
    for number in range(0, 200_000, 3):
        groups.setdefault(number * 5 % 7, []).append(number * 5)
    answer = (0, f"{{{', '.join(f'{key}={items}' for key, items in groups.items())}}}\n", "")
    for workers in ["1", "2", "7", "64"]:
        yield f"groups with {workers} workers", ran([PSTREAM, WHY / "groups.pipeline", "--workers", workers]) == answer, True


# Others.

def java():
    """Java's parallel streams: wrong numbers, no first numbers, the end of the process."""
    yield from wrong_answers("Java", ran(["java", WHY / "Reduce.java"]))
    yield f"Java: no first number in {LONG} seconds", ran(["java", WHY / "First.java"], seconds=LONG), ("no end", "", "")
    yield f"Java: no three that differ in {LONG} seconds", ran(["java", WHY / "Distinct.java"], seconds=LONG), ("no end", "", "")
    status, out, err = ran(["java", "-Xmx60m", WHY / "List.java"])
    yield "Java: a list in 60 MB", (status, out, "java.lang.OutOfMemoryError" in err), (1, "", True)


def rust():
    """Rust's Vec: the process is aborted, which a shell tells as 134."""
    built = ran(["rustc", "--edition", "2021", "-O", "-o", BUILT / "list", WHY / "list.rs"])
    yield "Rust: it builds", built, (0, "", "")
    status, out, err = ran([BUILT / "list"], preexec_fn=little_memory)
    yield "Rust: a list in 60 MB", (status, out, "memory allocation of 80000000 bytes failed" in err), (-signal.SIGABRT, "", True)


def findings():
    """All that is shown, and what isn't."""
    parts = {
        program: [],
        reduces: ["rt", ROOT / "crates" / STANDS_ON / "out" / "incremental"],
        java: ["java"],
        rust: ["rustc"],
        rayon_answers: ["cargo", RAYON / "rayon-1*"],
    }
    skipped = 0
    for part, needs in parts.items():
        lacking = [str(it) for it in needs if not (shutil.which(it) if isinstance(it, str) else list(it.parent.glob(it.name)))]
        if lacking:
            skipped += 1
            print(f"skipped: {part.__name__}, which needs {', '.join(lacking)}")
        else:
            yield from part()
    print(f"{skipped} skipped")


def main():
    need_program()
    BUILT.mkdir(exist_ok=True)
    conclude(findings())


if __name__ == "__main__":
    main()
