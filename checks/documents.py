#!/usr/bin/env python3
"""Compares the documents with the sources and with the built program.

    checks/documents.py [--help-of FILE]

A page may have no date and no commit (but in the table of docs/performance.md), no name in code marks that no source has, no "`name` of
[file](..)" whose file lacks it, no link that leads nowhere, and no more bytes than SIZES tells. docs/signatures.md is what
checks/signatures.py makes. The man page has the options, defaults, statuses, forms and examples of `--help`, and the faults of
docs/faults.md. Files that docs/language.md and docs/faults.md show are run, and so are the examples of `--help` and of the man page: each
prints what stands behind it. The program has to be built before; with a file of the help's words, the texts alone are compared.
"""

import argparse
import os
import pathlib
import re
import shlex
import subprocess
import tempfile
import textwrap

import record
import signatures
from built import PSTREAM, ROOT, conclude, need_program, run

DOCS = ROOT / "docs"
# the most bytes that each page may have, and those that README.md, examples/README.md and docs/ may have in all, docs/signatures.md aside
SIZES, ALL_SIZES = {
    "README.md": 7_000, "examples/README.md": 5_500, "examples/why/README.md": 1_900, "bench/README.md": 4_000, "docs/ARCHITECTURE.md": 10_500,
    "docs/DECISIONS.md": 30_000, "docs/PROVED.md": 14_500, "docs/TOOLCHAIN.md": 10_000, "docs/board.md": 8_000, "docs/faults.md": 6_000,
    "docs/from-java.md": 20_000, "docs/glossary.md": 6_000, "docs/inside.md": 12_000, "docs/language.md": 10_100, "docs/library.md": 20_500,
    "docs/many-machines.md": 8_000, "docs/performance.md": 8_000, "docs/pool.md": 8_000, "docs/pstream.1": 6_400, "docs/signatures.md": 250_000,
}, 171_500
# names in code marks that no source has: patterns, words of other programs' command lines and messages, methods of Java's behind column one
NO_SOURCE = {"of_NAME", "KEY", "v3", "plant", "verdict", "man", "retries", "f64", "LibcRuntime", "closure", "findAny", "ofNullable", "ArrayDeque"}
DATE = re.compile(r"\b20\d\d-\d\d\b(?:-\d\d)?|(?:\b\d+ )?\b(?:Jan|Feb|Mar|Apr|May|Jun|Jul|Aug|Sep|Oct|Nov|Dec)[a-z]*\.? 20\d\d")
COMMIT = re.compile(r"\b(?=[a-f]*\d)(?=\d*[a-f])(?:[0-9a-f]{7,12}|[0-9a-f]{40})\b")
FENCED = re.compile(r"^```.*?^```", re.MULTILINE | re.DOTALL)
LINK = re.compile(r"(?:`([^`]+)`\s+of\s+)?\[[^\]]*\]\((?!http)([^)\s]+)\)")
FENCE = re.compile(r"^```(pipeline|sh)\n(.*?)^```\n(.*?)(?=^```|^#|\Z)", re.MULTILINE | re.DOTALL)
# macros of the man page that put no space between their words, and those that begin a paragraph
JOINING = (".BI", ".BR", ".IR", ".RB")
PARAGRAPHS = (".PP", ".TP")
OPTION = re.compile(r"^ +(?:-h, )?(--\w+)(?: <(\w)>)? +(.*?)(?: \[default: (\d+)\])?$", re.MULTILINE)


def squeezed(text):
    """A text with one space between its words."""
    return " ".join(text.split())


def source_words():
    """The words of all files that are no pages, without the comments of crates, and of their paths."""
    words = set()
    for top in ["crates", "checks", "bench", "examples", ".ci", "crates.txt"]:
        for file in [ROOT / top, *(ROOT / top).rglob("*")]:
            if file.is_file() and file.suffix not in (".md", ".pyc") and "/out/" not in str(file) and file.name != "documents.py":
                text = re.sub({".rt": "//.*", ".antt": "--.*"}.get(file.suffix, "(?!)"), "", file.read_text(errors="replace"))
                words.update(re.findall(r"\w+", f"{file.relative_to(ROOT)} {text}"))
    return words


def lost_names(page, text, words):
    """The paths in code marks that are no files, and the words that no source has. The first column of docs/from-java.md has names of Java's."""
    text = re.sub(r"^\| [^|]* \|", "", text, flags=re.MULTILINE) if page.name == "from-java.md" else text
    for part in " ".join(re.findall(r"`([^`]+)`", text)).split():
        is_path = re.fullmatch(r"[\w.*-]+(/(?!out/)[\w.*-]+)+", part)
        found = [top.glob(re.sub(r"\b[A-Z]+\b", "*", part)) for top in (ROOT, page.parent)] if is_path else []
        lost = [part] if is_path else [it for it in re.findall(r"[A-Za-z_]\w*", part) if it not in words | NO_SOURCE]
        yield from (f"`{it}` is in no source" for it in lost if not any(map(any, found)) and not (ROOT / part).exists())


def anchors(page):
    """The anchors of a page's headings."""
    headings = re.findall(r"^#+ (.*)$", FENCED.sub("", page.read_text()).lower(), re.MULTILINE)
    return {re.sub(r"[^\w\- ]", "", heading).replace(" ", "-") for heading in headings}


def lost_links(page, text):
    """The links that lead nowhere, and those to a file that lacks the name that stands before it."""
    for name, target in LINK.findall(text):
        path, _, anchor = target.partition("#")
        file = page.parent / path if path else page
        if not file.exists() or anchor and anchor not in anchors(file):
            yield f"{target} leads nowhere"
        elif name and file.is_file() and not set(re.findall(r"\w+", name)) <= set(re.findall(r"\w+", file.read_text())):
            yield f"{target} lacks `{name}`"


def pages_alone():
    """What stands in the pages that may not stand there."""
    files = [ROOT / "README.md", DOCS / "pstream.1", *(it for top in ["docs", "examples", "bench"] for it in (ROOT / top).rglob("*.md"))]
    words, sizes = source_words(), {str(it.relative_to(ROOT)): it.stat().st_size for it in files}
    for page, (path, size) in zip(files, sizes.items()):
        text = FENCED.sub("", page.read_text())
        dated = re.sub(r"^\|.*", "", text, flags=re.MULTILINE) if path == "docs/performance.md" else text
        lost = [*lost_names(page, text, words), *lost_links(page, text)] if page.suffix == ".md" and page != signatures.PAGE else []
        long = [f"{size} bytes, {SIZES.get(path, 0)} allowed"] * (size > SIZES.get(path, 0))
        yield f"{path} by itself", [*DATE.findall(text), *COMMIT.findall(dated), *lost, *long], []
    total = sum(size for path, size in sizes.items() if path.startswith(("docs/", "README", "examples/README"))) - sizes["docs/signatures.md"]
    yield f"{total} bytes of all pages, {ALL_SIZES} allowed", total <= ALL_SIZES, True
    yield "docs/signatures.md is what checks/signatures.py makes", signatures.PAGE.read_text() == signatures.page(), True
    parcel = record.block("spliterator", "Parcel", [("sender", "String"), ("grams", "i64"), ("place", "i64")])
    yield "parcel.rt is what checks/record.py prints", (ROOT / "crates/source_tests/src/parcel.rt").read_text(), parcel


# What `--help` says.

class Help:
    """The parts of the help's text."""

    def __init__(self, text):
        blocks = text.split("\n\n")
        self.usage = next(block for block in blocks if block.startswith("Usage: ")).removeprefix("Usage: ")
        self.options = {flag: (value, words, default) for flag, value, words, default in OPTION.findall(text)}
        forms = next(at for at, block in enumerate(blocks) if block.startswith("FILE has a line"))
        self.grammar = textwrap.dedent("\n\n".join(blocks[forms + 1:forms + 3]))
        self.ranges = squeezed(blocks[forms + 3])
        examples = blocks[forms + 4:blocks.index("Status:")]
        self.examples = [(title, textwrap.dedent(file)) for title, file in zip(examples[::2], examples[1::2])]
        self.statuses = dict(line.split(maxsplit=1) for line in blocks[blocks.index("Status:") + 1].splitlines())


# What the man page says.

def spoken(line):
    """The text of a line, with a macro's words as it joins them."""
    if line.startswith("."):
        macro, *words = shlex.split(line)
        return ("" if macro in JOINING else " ").join(words)
    return line.replace("\\-", "-").replace("\\e", "\\")


class Manual:
    """The parts of the man page."""

    def __init__(self, text):
        self.sections = {}
        for line in text.splitlines():
            if line.startswith(".SH "):
                lines = self.sections.setdefault(spoken(line), [])
            elif not line.startswith(".TH "):
                lines.append(line)

    def text(self, section):
        return squeezed(" ".join(spoken(line) for line in self.sections[section]))

    def blocks(self, section):
        """The section's blocks that keep their lines, each behind the paragraph before it."""
        paragraph, block, ended = [], None, False
        for line in self.sections[section]:
            if line == ".nf":
                block = []
            elif line == ".fi":
                yield squeezed(" ".join(paragraph)), textwrap.dedent("\n".join(block))
                block, ended = None, True
            elif block is not None:
                block.append(spoken(line))
            elif line in PARAGRAPHS:
                ended = True
            else:
                paragraph = [] if ended else paragraph
                paragraph.append(spoken(line))
                ended = False

    def items(self, section):
        """The section's tagged paragraphs."""
        lines = self.sections[section]
        found = {}
        for at, line in enumerate(lines):
            if line == ".TP":
                rest = lines[at + 2:]
                end = next((i for i, other in enumerate(rest) if other in PARAGRAPHS), len(rest))
                found[spoken(lines[at + 1])] = squeezed(" ".join(spoken(other) for other in rest[:end]))
        return found


# The comparisons. Each gives a name, what was found and what was wanted.

def man_page(manual, told):
    """The man page beside the help."""
    options = " ".join(f"[{flag} {value}]" for flag, (value, _, _) in told.options.items() if value)
    yield "synopsis of the man page", manual.text("SYNOPSIS"), f"pstream {options} FILE pstream --help"
    yield "usage of the help", told.usage, "pstream [OPTIONS] <FILE>"
    for flag, (value, words, default) in told.options.items():
        tag = f"-h, {flag}" if flag == "--help" else f"{flag} {value}"
        said = manual.items("OPTIONS").get(tag, "")
        yield f"{flag} in the man page", (said.startswith(words), f"The default is {default}." in said or not default), (True, True)
    yield "options of the man page", len(manual.items("OPTIONS")), len(told.options)
    yield "statuses of the man page", manual.items("EXIT STATUS"), told.statuses
    yield "forms of the man page", [block for _, block in manual.blocks("THE FILE")], [told.grammar]
    yield "ranges of the man page", told.ranges in manual.text("THE FILE"), True
    yield "examples of the man page", list(manual.blocks("EXAMPLES"))[:len(told.examples)], told.examples
    yield "number of the help's examples", len(told.examples), 2


def pages(manual, told):
    """docs/language.md and docs/faults.md beside the help and the man page."""
    language = (DOCS / "language.md").read_text()
    yield "the grammar of docs/language.md", f"```text\n{told.grammar}\n```\n" in language, True
    faults = re.findall(r"^## (\d+) (\w+)$", (DOCS / "faults.md").read_text(), re.MULTILINE)
    yield "numbers of docs/faults.md", [int(number) for number, _ in faults], list(range(1, 12))
    yield "faults of the man page", re.findall(r"\b[A-Z]+(?:_[A-Z]+)+\b", manual.text("FAULTS")), [name for _, name in faults]


def printed(file):
    """What the program writes of a file's bytes."""
    _, out, err = run(["/dev/stdin"], input=file)
    return (out + err).decode().rstrip("\n")


def shown_files():
    """The files that the two pages show."""
    for page in ["language.md", "faults.md"]:
        found = FENCE.findall((DOCS / page).read_text())
        yield f"docs/{page} shows files", bool(found), True
        for kind, text, behind in found:
            file = text.encode() if kind == "pipeline" else subprocess.run(["sh", "-c", text], capture_output=True).stdout
            yield f"docs/{page}: {squeezed(text)[:60]}", printed(file), re.search(r"`([^`]+)`", behind).group(1)


def help_examples(told):
    for title, file in told.examples:
        yield f"--help: {title}", "it writes " + printed(f"{file}\n".encode()) + ":", title.split("; ")[-1]


def sessions(manual):
    """The commands of the man page, in one folder."""
    with tempfile.TemporaryDirectory() as folder:
        environment = dict(os.environ) | {"PATH": f"{PSTREAM.parent}:{os.environ['PATH']}"}
        for _, block in manual.blocks("EXAMPLES"):
            for session in re.findall(r"^\$ (.*\n(?:> .*\n)*)((?:(?!\$ ).*\n)*)", block + "\n", re.MULTILINE):
                command = session[0].replace("\n> ", "\n")
                done = subprocess.run(["sh", "-c", command], stdout=subprocess.PIPE, stderr=subprocess.STDOUT, cwd=folder, env=environment)
                yield f"man page: {squeezed(command)[:60]}", done.stdout.decode(), session[1]


def main():
    parser = argparse.ArgumentParser()
    parser.add_argument("--help-of", type=pathlib.Path, help="a file with the words of `pstream --help`")
    options = parser.parse_args()
    if not options.help_of:
        need_program()
    told = Help(options.help_of.read_text() if options.help_of else run(["--help"])[1].decode())
    manual = Manual((DOCS / "pstream.1").read_text())
    findings = [*pages_alone(), *man_page(manual, told), *pages(manual, told)]
    if not options.help_of:
        findings += [*shown_files(), *help_examples(told), *sessions(manual)]
    conclude(findings)


if __name__ == "__main__":
    main()
