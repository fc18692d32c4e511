#!/usr/bin/env python3
"""Checks of the built program that can't be tests of a crate: real devices, and requests for memory refused.

    checks/program.py

`rt ci` leaves the program built, and `rt run` in crates/pstream builds it. Random pipelines over long ranges that few numbers decide (lazy.py) have to
be answered soon, in little memory. Memory is refused by a small library of this folder (refusing.py). Of a
row of the language each request is refused in turn, one a run, with 1 and with 7 workers at target 1, where a row makes few; of another
command line as well, or some of them, evenly spread, where it makes more than these. So many runs, and so many refusals, are told and compared. Where a
file tells a great number, so great a request and so many bytes in all are refused as no small file needs.
"""

import collections
import itertools
import resource
import subprocess

import lazy
from built import EXAMPLES, PSTREAM, conclude, need_program, run, told_list, told_map
from refusing import MEMORY, Refusing

SUM = EXAMPLES / "01-sum.pipeline"
# the lines of files behind the first, with what is written, or told with a status
ROWS = {
    "pipeline 1": [
        ("range 1 6\nsum", "15"),
        ("range 5 5\nsum", "0"),
        ("range 5 5\nmax", "Optional.empty"),
        ("range 0 10\nlimit 0\ntolist", "[]"),
        ("closed 9223372036854775806 9223372036854775807\nsum", "-3"),
        ("lines 3\n\na\n\njoining ,", ",a,"),
        ("numbers 3 1 3 2 1\ndistinct\ntolist", "[3, 1, 2]"),
        ("numbers 5 2 7 4 5\ngroupby mod 2 counting", "{1=3, 0=2}"),
        ("numbers 1 3\npartition divisible 2 tolist", "{false=[1, 3], true=[]}"),
        ("numbers 1 2 3 4\ntomap mod 2 self last", "{1=3, 0=4}"),
        ("range 1 5\nteeing sum count", "[10, 4]"),
        ("range 0 0\nallmatch less 0", "true"),
        ("range 0 0\nanymatch less 0", "false"),
        ("numbers 1 2 5 1\ntakewhile less 3\ntolist", "[1, 2]"),
        ("numbers 1 2 5 1\ndropwhile less 3\ntolist", "[5, 1]"),
        ("numbers 1 2 3\nskip 10\ncount", "0"),
        ("numbers 1 2 3\nflatmap repeat 0\ncount", "0"),
        ("numbers 3 -1\nflatmap repeat 5\nproduct", "-243"),
        ("lines 2\na b\nc\nflatmap words\njoining - < >", "<a-b-c>"),
        ("lines 3\nbb\na\ncc\ngroupby length joining +", "{2=bb+cc, 1=a}"),
        ("numbers 4 8 15\nskip 1\nlimit 1\nmap add 1\ntolist", "[9]"),
        ("lines 1\nx\nsum", ("line 4: WRONG_KIND", 2)),
    ],
    "pipeline 2": [
        ("numbers 1 2 3 4 3 1\ntomapstrict mod 10 self", ("duplicate key 3", 4)),
        ("numbers 1 2\ntomapstrict self negate", "{1=-1, 2=-2}"),
        ("numbers 1 2 3 4 5 6\ngroupby mod 2 groupby mod 3 counting", "{1={1=1, 0=1, 2=1}, 0={2=1, 1=1, 0=1}}"),
        ("numbers 1 2 3\npartition less 3 mapping mul 10 tolist", "{false=[30], true=[10, 20]}"),
        ("numbers 1 2 3\ngroupby mod 2 filtering greater 2 count", "{1=1, 0=0}"),
        ("lines 2\nab\ncd\ntomapstrict length self", ("duplicate key 2", 4)),
        ("lines 3\nab\nc\ncd\ntomapstrict length self", ("duplicate key 2", 4)),
        ("numbers 1 2 3 4\nteeing mapping mul 2 sum filtering divisible 2 tolist", "[20, [2, 4]]"),
        ("lines 3\na b\nc\na\ngroupby length mapping length sum", "{3=3, 1=2}"),
        ("numbers 5 2 7 4 5\npartition greater 3 groupby mod 2 tolist", "{false={0=[2]}, true={1=[5, 7, 5], 0=[4]}}"),
    ],
}
WORKERS = ["1", "7"]
OTHER_SETTINGS = [("3", "0"), ("3", "17"), ("5", "3"), ("5", "1000")]
# what their first numbers decide, over ranges that are too long to be read, or to be read in so little memory
DECIDED = [
    ("range 0 4611686018427387804\nfilter divisible 100\nlimit 1000\ncount", "1000"),
    ("range 0 1000000000000\ndropwhile divisible 3\ntakewhile greater 0\nfindfirst", "Optional[1]"),
    ("range 0 1000000000000\nmap mod 10\nfilter equals 0\ndistinct\nmap mod 1000\nlimit 3\nfindfirst", "Optional[0]"),
    ("range -7 4611686018427387896\ntakewhile less 519\nflatmap repeat 0\ntakewhile less 756\ntolist", "[]"),
    ("range 0 4611686018427387904\nfilter equals -1\nflatmap repeat 0\nsum", "0"),
    ("range 0 9000000\nflatmap repeat 1000\ndropwhile less 5000\nfindfirst", "Optional[5000]"),
    ("range 0 1000000\nflatmap repeat 1000\nflatmap repeat 1000\nskip 1\nfindfirst", "Optional[0]"),
    ("range 0 1000000\nflatmap repeat 1000\nflatmap repeat 1000\nskip 1\nlimit 3\ntolist", "[0, 0, 0]"),
    # places far from the front
    ("range 0 4611686018427387904\nmap mod 1000000007\nskip 30000000\nlimit 1\ntolist", "[30000000]"),
    ("range 0 4611686018427387904\nmap mod 1000000007\ndropwhile less 30000000\nfindfirst", "Optional[30000000]"),
]
# how many random ones are tried beside these, and what each may take
MANY = 1_000
SECONDS = 5
MOST_MEMORY = 400_000_000
# the most requests of a row, so that each can be refused, and how many of another command line are refused, evenly spread where it makes more
MOST_OF_ROWS = 1000
MOST_REFUSALS = 100
WANT_OF_MEMORY = (3, b"", b"out of memory\n")
NO_TEXT = b"error: invalid UTF-8 was detected in one or more arguments\n"
# a request for the largest file, and what a small file asks for beside it
GREATEST_REQUEST = 1_100_000
MOST_BYTES = 3_000_000


def devices():
    """What the program does on devices, and with words that aren't text, and what it has to do."""
    with open("/dev/full", "wb") as full:
        yield "an output that is full", run([SUM], stdout=full), (3, b"", b"write failed\n")
        yield "help to an output that is full", run(["--help"], stdout=full), (3, b"", b"write failed\n")
    with open(SUM, "rb") as file:
        yield "the device file of standard input", run(["/dev/stdin"], stdin=file), (0, b"15\n", b"")
    yield "standard input from a pipe", run(["/dev/stdin"], input=SUM.read_bytes()), (0, b"15\n", b"")
    yield "a folder", run([EXAMPLES]), (3, b"", b"read failed\n")
    yield "no such file", run([EXAMPLES / "none"]), (3, b"", b"read failed\n")
    yield "an endless file", run(["/dev/zero"]), (2, b"", b"line 0: TOO_LARGE\n")
    yield "a word that isn't UTF-8", run([SUM, b"\xff"]), (2, b"", NO_TEXT)


def in_little_memory():
    resource.setrlimit(resource.RLIMIT_AS, (MOST_MEMORY, MOST_MEMORY))


def decided_by_few():
    """What the plain, lazy definition answers after few items is answered soon, in little memory."""
    for lines, told in itertools.chain(DECIDED, lazy.cases(MANY)):
        file = f"pipeline 1\n{lines}\n".encode()
        try:
            found = run(["/dev/stdin"], input=file, timeout=SECONDS, preexec_fn=in_little_memory)
        except subprocess.TimeoutExpired:
            found = "no end"
        yield f"soon decided: {lines!r}", found, (0, f"{told}\n".encode(), b"")


def rows():
    """The row's name, with how many workers it runs, its file, and how it ends."""
    for first, its_rows in ROWS.items():
        for (lines, told), workers in itertools.product(its_rows, WORKERS):
            line, status = told if isinstance(told, tuple) else (told, 0)
            end = (status, b"", f"{line}\n".encode()) if status else (0, f"{line}\n".encode(), b"")
            yield f"{workers} workers, {first}; " + "; ".join(lines.split("\n")), workers, f"{first}\n{lines}\n".encode(), end


def commands():
    """Other command lines: a name, words behind the program, and how they end."""
    for words in [SUM, "--workers", "64", "--target", "1"], [SUM, "--workers", "65"], ["--help"], []:
        yield "pstream " + " ".join(getattr(word, "name", word) for word in words), words, run(words)
    for file, workers in itertools.product(sorted(EXAMPLES.glob("*.pipeline")), WORKERS):
        words = [file, "--workers", workers, "--target", "1"]
        yield f"{workers} workers, {file.name}", words, run(words)


Refused = collections.namedtuple("Refused", "ample tried refused wants others")


def refuse(refusing, words, file, end, most):
    """The command with ample memory; how many of its requests were to be refused, one a run, and were; how many runs ended in want of memory; and
    the runs that ended neither so nor as the command has to."""
    ample = refusing.run([PSTREAM, *words], file)
    numbers = range(1, ample.requests + 1, max(1, -(-ample.requests // most)))
    runs = refusing.run_each([PSTREAM, *words], file, MEMORY, numbers)
    others = [(number, it[:3]) for number, it in runs if it[:3] not in (end, WANT_OF_MEMORY)]
    wants = sum(it[:3] == WANT_OF_MEMORY for _, it in runs)
    return Refused(ample, len(runs), sum(it.refused for _, it in runs), wants, others)


def told_of(found, name):
    return f"{found.refused} of {found.ample.requests} requests refused, {found.wants} wants of memory: {name}"


def refused_rows(refusing):
    """Each request of a row refused in turn."""
    made, refused = 0, 0
    for name, workers, file, end in rows():
        words = ["/dev/stdin", "--workers", workers, "--target", "1"]
        found = refuse(refusing, words, file, end, MOST_OF_ROWS)
        # (with several workers a run may make fewer requests than another)
        is_whole = found.tried == found.ample.requests and (found.refused == found.tried or workers != "1")
        yield told_of(found, name), (found.ample[:3], found.others, is_whole, found.wants > 0), (end, [], True, True)
        made, refused = made + found.ample.requests, refused + found.refused
    yield f"{refused} of {made} requests of the rows refused", 0.95 * made <= refused <= made, True


def refused_commands(refusing):
    for name, words, end in commands():
        found = refuse(refusing, words, b"", end, MOST_REFUSALS)
        yield told_of(found, name), (found.ample[:3], found.others, found.wants > 0), (end, [], True)


def small_files_with_great_numbers(refusing):
    """Room is asked for by what a file has, not by a number that it tells."""
    limits = {"GREATEST_REQUEST": GREATEST_REQUEST, "MOST_BYTES": MOST_BYTES}
    for lines, told in [
        ("lines 1000000\nsum", (2, b"", b"line 4: MISSING_TERMINAL\n")),
        ("lines 1000000\n\xff", (2, b"", b"line 3: BAD_TEXT\n")),
        ("range 0 100\ngroupby mod 100 tolist", None),
        ("range 0 4611686018427387904\nlimit 3\ntolist", (0, b"[0, 1, 2]\n", b"")),
        ("range 0 3\nlimit 9223372036854775807\ntolist", (0, b"[0, 1, 2]\n", b"")),
        ("range 0 3\nskip 9223372036854775807\ntolist", (0, b"[]\n", b"")),
        # a needless `distinct` falls away
        ("range 0 500000\ndistinct\nfilter divisible 7\ncount", (0, b"71429\n", b"")),
    ]:
        file = f"pipeline 1\n{lines}\n".encode("latin-1")
        wanted = told or run(["/dev/stdin"], input=file)
        found = refusing.run([PSTREAM, "/dev/stdin"], file, **limits)
        yield f"no great request for `{lines!r}`", found[:3], wanted


def fitting(texts, most):
    """The first texts that have room in so many bytes, each with one behind it."""
    ends = itertools.accumulate(len(it) + 1 for it in texts)
    return [it for it, end in zip(texts, ends) if end <= most]


def long_files():
    """Files of 100,000 bytes and of nearly the most that a file has: the source, the lines behind it, and what is written."""
    for most in 100_000, 1_048_500:
        spelled = fitting([str(i * 7919 % 99_991 - 50_000) for i in range(200_000)], most)
        numbers = [int(it) for it in spelled]
        kept = [x for x in numbers if x % 3 == 0]
        tail = itertools.dropwhile(lambda x: x < 0, numbers)
        for lines, wanted in [
            ("sum", sum(numbers)),
            ("filter divisible 3\nmap add 1\ntolist", told_list(x + 1 for x in kept)),
            ("distinct\ncount", len(set(numbers))),
            ("filter divisible 3\nskip 500\nlimit 2000\nmax", f"Optional[{max(kept[500:2500])}]"),
            ("dropwhile less 0\ngroupby mod 10 counting", told_map(collections.Counter(x % 10 for x in tail).items())),
            ("tomap mod 100 self last", told_map({x % 100: x for x in numbers}.items())),
        ]:
            yield f"numbers {' '.join(spelled)}", lines, wanted
        texts = fitting([f"{'abc'[i % 3]} {i * 7919 % 997}" for i in range(300_000)], most)
        words = [word for it in texts for word in it.split(" ")]
        for lines, wanted in [
            ("joining +", "+".join(texts)),
            ("map length\nsum", sum(map(len, texts))),
            ("flatmap words\ngroupby self counting", told_map(collections.Counter(words).items())),
            ("flatmap words\ndistinct\nskip 5\njoining -", "-".join([*dict.fromkeys(words)][5:])),
        ]:
            yield "\n".join([f"lines {len(texts)}", *texts]), lines, wanted


def other_settings():
    """Long files with numbers of workers, and targets, that no row has."""
    for source, lines, wanted in long_files():
        file = f"pipeline 1\n{source}\n{lines}\n".encode()
        ends = [run(["/dev/stdin", "--workers", workers, "--target", target], input=file) for workers, target in OTHER_SETTINGS]
        others = [end for end in ends if end != (0, f"{wanted}\n".encode(), b"")]
        yield f"3 and 5 workers, {len(file)} bytes, {lines!r}", [it[::2] for it in others], []


def main():
    need_program()
    refusing = Refusing()
    conclude(
        itertools.chain(
            devices(),
            other_settings(),
            decided_by_few(),
            small_files_with_great_numbers(refusing),
            refused_rows(refusing),
            refused_commands(refusing),
        )
    )


if __name__ == "__main__":
    main()
