"""The program beside Java's streams, plain Rust programs and awk.

Java's warmed streams are the measure for 100,000,000 numbers, for collectors and for cuts, a plain loop of Rust threads for numbers, Java's whole
process for the smallest file. Times of awk are told where it can say the same, with no limit: it has one thread and its numbers are
floats.
"""

import pathlib
import random

HERE = pathlib.Path(__file__).resolve().parent
MANY = 100_000_000
SOME = 10_000_000
WORKERS = 4

# the lines behind the range, the constants, and what awk does where its numbers are exact: an item, and the end
NUMBERS = {
    "sum": (["sum"], [], ("s += i", 'printf "%.0f\\n", s')),
    "map-sum": (["map mul 3", "sum"], [3], None),
    "filter-sum": (["filter divisible 7", "sum"], [7], ("if (i % 7 == 0) s += i", 'printf "%.0f\\n", s')),
    "map-filter-sum": (["map mul 3", "filter greater 1000", "sum"], [3, 1000], None),
    "mod-max": (["map mod 1000", "max"], [1000], ("r = i % 1000; if (r > m) m = r", 'printf "Optional[%d]\\n", m')),
    "map-filter-max": (["map mul 3", "filter divisible 7", "max"], [3, 7], None),
}

# the same for what is measured beside the loop by hand alone
BY_HAND = {
    "mod-all": (["map mod 1000", "allmatch less 1000"], [1000, 1000]),
    "divisible-none": (["filter divisible 7", "nonematch equals -7"], [7, -7]),
    "group-count": (["groupby mod 1000 count"], [1000]),
    "group-sum": (["groupby mod 1000 sum"], [1000]),
}

# what changes how many items there are: numbers, the lines behind the range, the constants
CUTS = {
    "repeat": (SOME, ["flatmap repeat 4", "limit 20000000", "filter divisible 7", "sum"], [4, 20_000_000, 7]),
    "limit": (SOME, ["filter divisible 3", "limit 1600000", "sum"], [3, 1_600_000]),
    "skip": (SOME, ["filter divisible 3", "skip 1600000", "sum"], [3, 1_600_000]),
    "take-while": (SOME, ["map mul 3", "takewhile less 18000000", "filter divisible 7", "sum"], [3, 18_000_000, 7]),
    "drop-while": (SOME, ["map mul 3", "dropwhile less 18000000", "filter divisible 7", "sum"], [3, 18_000_000, 7]),
    "few-distinct": (SOME, ["map mod 1000", "distinct", "sum"], [1000]),
    "all-distinct": (SOME, ["map mod 100000007", "distinct", "sum"], [100_000_007]),
}

# a map of counts, keys in the order of their first item
COUNT = "if (!(k in c)) o[m++] = k; c[k]++"
PRINT_COUNTS = 'printf "{"; for (j = 0; j < m; j++) printf "%s%d=%d", j ? ", " : "", o[j], c[o[j]]; print "}"'

COLLECTORS = {
    "group": (SOME, ["groupby mod 1000 counting"], [1000], ("k = i % 1000; " + COUNT, PRINT_COUNTS)),
    "distinct": (SOME, ["map mod 100000", "distinct", "count"], [100000], ("k = i % 100000; if (!(k in c)) { c[k]; m++ }", "print m")),
    "list": (1_000_000, ["tolist"], [], ('printf "%s%d", i ? ", " : "[", i', 'print "]"')),
}


def number_cases(tools):
    peer = tools.rust(HERE / "peer_numbers.rs")
    java = tools.java(HERE / "Pipelines.java")
    for name, (lines, constants, awk) in NUMBERS.items():
        file = tools.file(name, ["pipeline 1", f"range 0 {MANY}", *lines])
        words = [str(word) for word in [0, MANY, *constants]]
        peers = [
            tools.Peer("Java's warmed parallel stream", [*java, "warm", name, *words], limit=1, tells_time=True),
            tools.Peer("Rust threads by hand", [peer, name, str(WORKERS), *words], limit=2),
            tools.Peer("Java's whole process", [*java, "cold", name, *words]),
            *awk_peers(tools, MANY, awk),
        ]
        yield tools.Case(f"{MANY:,} numbers, {name}", [tools.pstream, file, "--workers", str(WORKERS)], peers)


def hand_cases(tools):
    """Folds, matches and groups beside the loop by hand, on one worker and on four, over a range and over a file's numbers."""
    peer = tools.rust(HERE / "peer_numbers.rs")
    folds = {name: (lines, constants) for name, (lines, constants, _) in NUMBERS.items()}
    numbers = random.Random(1)
    listed = "numbers " + " ".join(str(numbers.randint(-10**6, 10**6)) for _ in range(125_000))
    for name, (lines, constants) in {**folds, **BY_HAND}.items():
        many = SOME if name.startswith("group") else MANY
        ranged = tools.file(f"{name}-range", ["pipeline 1", f"range 0 {many}", *lines])
        file = tools.file(f"{name}-file", ["pipeline 1", listed, *lines])
        constants = [str(constant) for constant in constants]
        for workers in (1, WORKERS):
            for told, path, words in [(f"{many:,} numbers", ranged, ["0", str(many)]), ("a file's 125,000 numbers", file, ["file", file])]:
                hand = tools.Peer("the loop by hand", [peer, name, str(workers), *words, *constants], limit=1.5)
                yield tools.Case(f"{told}, {name}, {workers} workers", [tools.pstream, path, "--workers", str(workers)], [hand])


def collector_cases(tools):
    java = tools.java(HERE / "Pipelines.java")
    for name, (count, lines, constants, awk) in COLLECTORS.items():
        file = tools.file(name, ["pipeline 1", f"range 0 {count}", *lines])
        words = [str(word) for word in [0, count, *constants]]
        peers = [
            tools.Peer("Java's warmed best", [*java, "warm", name, *words], limit=1, tells_time=True),
            tools.Peer("Java's whole process", [*java, "cold", name, *words]),
            *awk_peers(tools, count, awk),
        ]
        yield tools.Case(f"{count:,} numbers, {name}", [tools.pstream, file, "--workers", str(WORKERS)], peers)


def cut_cases(tools):
    """Repeats, limits, skips, whiles and `distinct`; by hand they are one loop on one thread."""
    peer = tools.rust(HERE / "peer_numbers.rs")
    java = tools.java(HERE / "Pipelines.java")
    for name, (count, lines, constants) in CUTS.items():
        file = tools.file(name, ["pipeline 1", f"range 0 {count}", *lines])
        words = [str(word) for word in [0, count, *constants]]
        peers = [
            tools.Peer("Java's warmed best", [*java, "warm", name, *words], limit=1, tells_time=True),
            tools.Peer("the loop by hand on one thread", [peer, name, "1", *words]),
        ]
        yield tools.Case(f"{count:,} numbers, {name}", [tools.pstream, file, "--workers", str(WORKERS)], peers)


def awk_peers(tools, count, awk):
    if awk:
        item, end = awk
        program = f"BEGIN {{ for (i = 0; i < {count}; i++) {{ {item} }} {end} }}"
        yield tools.Peer("awk", ["awk", program], slow=True)


def line_case(tools):
    """A megabyte of lines, grouped by length."""
    lines, size = [], 0
    letters = random.Random(1)
    while size < 1_000_000:
        lines.append("".join(letters.choices("abcdefghij klmnop", k=letters.randrange(60))))
        size += len(lines[-1]) + 1
    file = tools.file("lines", ["pipeline 1", f"lines {len(lines)}", *lines, "groupby length count"])
    java = tools.java(HERE / "Pipelines.java")
    program = f"NR > 2 && NR <= {len(lines) + 2} {{ k = length($0); {COUNT} }} END {{ {PRINT_COUNTS} }}"
    peers = [
        tools.Peer("Java's warmed best", [*java, "warm", "lines", file], limit=1, tells_time=True),
        tools.Peer("Java's whole process", [*java, "cold", "lines", file]),
        tools.Peer("Rust threads by hand", [tools.rust(HERE / "peer_lines.rs"), file, str(WORKERS)]),
        tools.Peer("awk", ["awk", program, file]),
    ]
    ours = [tools.pstream, file, "--workers", str(WORKERS)]
    yield tools.Case("a megabyte of lines grouped by length", ours, peers, HERE / "run_warm")


def small_case(tools):
    """The whole process on five numbers."""
    file = HERE.parent.parent / "examples" / "01-sum.pipeline"
    peers = [
        tools.Peer("Java's whole process", [*tools.java(HERE / "Pipelines.java"), "cold", "sum", "1", "6"], limit=1 / 50),
        tools.Peer("a Rust program that reads the file and prints 15", [tools.rust(HERE / "peer_row.rs"), file], limit=3),
    ]
    yield tools.Case("five numbers, sum", [tools.pstream, file], peers)


def cases(tools):
    yield from small_case(tools)
    yield from line_case(tools)
    yield from collector_cases(tools)
    yield from cut_cases(tools)
    yield from number_cases(tools)
    yield from hand_cases(tools)
