#!/usr/bin/env python3
"""Counts what each terminal, barrier and collector asks for: requests for memory, the most bytes that live at a time, and threads.

    checks/memory.py

Those of the language run as pipelines, and the libraries' own as a test of crates/run_tests that takes its name from the environment (`rt ci`
leaves both built). The library that refuses memory counts it too (refusing.py). A run takes what its plan, its board and its workers' blocks of
1,024 items take, and a row tells what else, as a function of items and leaves: bytes and requests are at most a tenth above that, and none live on.
"""

import collections
import itertools
import os

from built import PSTREAM, ROOT, conclude, need_program, told_list, told_map
from refusing import Refusing

TESTS = ROOT / "crates/run_tests/out/run_tests_tests"
# how many items, by how many workers; what keeps no list takes no more of many items
SHAPES, MANY = [(400_000, 1), (400_000, 4)], (10_000_000, 3)
# bytes and requests of any run, and bytes of a worker; the program's have room for the largest file
OF_PROGRAM, OF_TEST = (1_063_400, 10_000, 42), (1_000, 2_000, 8)
# what a thread keeps for the one that comes next, and how many threads more sort at least where there are several processors
OF_THREAD, SORTING = 600, int(os.cpu_count() > 1)

# a run of more items starts its threads at once, and one of fewer may start none
FEW = 1 << 18

# the sizes of all leaves, and of each segment its items and workers
Shape = collections.namedtuple("Shape", "items workers sizes segments")
# requests and bytes for a leaf, and bytes for the items, of which at least nine tenths live; runs of a segment, in the mean, those in which threads combine, threads that
# sort, and whether the source has more than one segment
Row = collections.namedtuple("Row", "name wanted requests leaf items runs joins sorting segmented", defaults=[0, None, 1, 0, 0, False])


def split(items, target):
    """The sizes of a range's leaves."""
    return [items] if items <= target else split(items // 2, target) + split(items - items // 2, target)


def shape(items, workers, segmented):
    """A range, as one segment or as the library cuts it: each may have twice as many items as the one before it, and those of at most 2^16 take one
    worker."""
    segments, parts, most = [], [items], 1 << 12 if segmented else items
    while parts:
        part = parts.pop()
        while part > most:
            parts.append(part - part // 2)
            part //= 2
        segments.append((part, 1 if segmented and most <= 1 << 16 else workers))
        most = min(2 * most, 1 << 20)
    sizes = [leaf for part, own in segments for leaf in split(part, max(part // (4 * own), 1))]
    return Shape(items, workers, sizes, segments)


def room(number, doublings=1):
    """The room of what grew by so many doublings at a time."""
    return 1 << -(-(number - 1).bit_length() // doublings) * doublings


def entries(number):
    """A map or a set of all items, with so many bytes for each entry that has room."""
    return lambda at: number * room(at.items)


def texts(image):
    """Each leaf writes its items with `, ` between them, and what was written stays."""
    room_of = lambda leaf: room(sum(len(str(it)) + 2 for it in map(image, leaf) if it is not None))
    return lambda at: sum(room_of(range(end - size, end)) for size, end in zip(at.sizes, itertools.accumulate(at.sizes)))


def an_item(one, several=None):
    """So many bytes an item, by one worker and by several."""
    return lambda at: at.items * (one if at.workers == 1 else several or one)


def pieces(at):
    """A list of numbers of eight bytes, and those of the leaves behind the first, which are moved to it."""
    return 8 * (2 * at.items - at.sizes[0])


def whole_list(at):
    """A list of numbers, which one worker writes as it stays."""
    return 8 * at.items if at.workers == 1 else pieces(at)


def listed(segment):
    """The list of a segment, in pieces."""
    number, own = segment
    return 8 * (2 * number - number // (4 * own))


def of_segment(at):
    """Of the longest one."""
    return listed(max(at.segments))


def before_half(at):
    """Of the longest one that begins in the first half of the items."""
    starts = itertools.accumulate((number for number, _ in at.segments), initial=0)
    longest = max(segment for segment, start in zip(at.segments, starts) if 2 * start < at.items)
    return listed(longest) * (5 if at.items > 1_000_000 else 4.2) // 4


def of_first(at):
    """Of the first one: what skips or drops nothing lets the others pass."""
    return listed(at.segments[0])


def of_leaves(at):
    """Of the longest one's leaves that run at a time: their lists, in pieces and as a whole, and what is left of them."""
    return (20 if at.items <= 1_000_000 else 13) * max(at.segments)[0] // 4


def counted(values):
    return told_map(enumerate(values))


# the lines of version 2 behind `range 0 N`, where HALF is half of N, and what is written
PIPELINES = [
    Row("map mod 10\nsum", lambda n: 9 * n // 2, 9),
    Row("product", lambda n: 0, 9),
    Row("map mod 7\nmax", lambda n: "Optional[6]", 9),
    Row("map mod 7\nmin", lambda n: "Optional[0]", 9),
    Row("filter divisible 2\ncount", lambda n: n // 2, 9),
    Row("filter equals 5\nfindfirst", lambda n: "Optional[5]", 9),
    *[Row(f"map mod 7\n{test}", lambda n: "true", 9) for test in ("allmatch less 7", "nonematch less 0")],
    Row("map mod 7\nanymatch less 0", lambda n: "false", 9),
    # (a block's copies have a room of their own)
    Row("flatmap repeat 2\nmap mod 10\nsum", lambda n: 9 * n, lambda at: 10 * len(at.sizes) + at.items // 1024, 2_100),
    Row("filter divisible 2\nlimit HALF\nmax", lambda n: f"Optional[{n - 2}]", 28, 0, lambda at: of_segment(at) * 5 // 8, 2, 1, segmented=True),
    Row("filter divisible 2\nskip 9\nmin", lambda n: "Optional[18]", 28, 0, of_first, segmented=True),
    Row("takewhile less HALF\nmap mod 10\nsum", lambda n: 9 * n // 4, 28, 2_500, before_half, 1.2, segmented=True),
    # (what came is dropped leaf by leaf, so that its lists go before the one that is left is whole)
    Row("dropwhile less HALF\nmap mod 10\nsum", lambda n: 9 * n // 4, 28, 0, lambda at: of_segment(at) * 9 // 10, 1.2, segmented=True),
    # (what came is dropped leaf by leaf; a segment that passes, or of which little is left, has one run with several workers)
    Row("map mod 1000\ndistinct\nsum", lambda n: 499_500, 28, 0, of_leaves, 1.2, segmented=True),
    Row("groupby mod 10 counting", lambda n: counted([n // 10] * 10), 18, 700),
    Row("groupby mod 10 sum", lambda n: counted(n // 10 * (n // 2 - 5 + k) for k in range(10)), 18, 1_900),
    Row("groupby mod 10 mapping mod 7 max", lambda n: counted(["Optional[6]"] * 10), 18, 2_400),
    Row("groupby mod 10 filtering less 10 count", lambda n: counted([1] * 10), 18, 2_400),
    Row("partition less HALF count", lambda n: f"{{false={n // 2}, true={n // 2}}}", 9, 400),
    Row("teeing min max", lambda n: f"[Optional[0], Optional[{n - 1}]]", 9, 400),
    Row("tomap mod 10 self last", lambda n: counted(range(n - 10, n)), 18, 700),
    Row("map add 1\ntolist", lambda n: told_list(range(1, n + 1)), 28, 0, texts(lambda x: x + 1)),
    Row("filter divisible 3\ntolist", lambda n: told_list(range(0, n, 3)), 28, 0, texts(lambda x: None if x % 3 else x)),
    Row("dropwhile less 9\ntolist", lambda n: told_list(range(9, n)), 36, 0, texts(lambda x: x), segmented=True),
    # numbers of eight bytes in lists, the lists' texts, and these in the whole
    Row("groupby mod 10 tolist", lambda n: counted(told_list(range(k, n, 10)) for k in range(10)), 190, 0, an_item(23)),
    Row("teeing tolist count", lambda n: f"[{told_list(range(n))}, {n}]", 28, 0, an_item(24)),
    Row("tomap self self last", lambda n: counted(range(n)), 80, 0, entries(51), joins=1),
    Row("tomapstrict self self", lambda n: counted(range(n)), 100, 0, entries(53), joins=1),
    Row("groupby self count", lambda n: counted([1] * n), 100, 0, entries(53), joins=1),
]

# those of crates/run_tests/src/each_terminal, which look at their answers themselves
FOLDS = "sum summary reduce reduce_optional min max min_by_key max_by_key count find_first any_match all_match none_match".split()
TERMINALS = [
    *[Row(name, None, 4) for name in FOLDS],
    Row("concat", None, 8, runs=2),
    Row("first_sorted", None, 14, 8_800, joins=1),
    Row("to_list", None, 6, 0, whole_list, joins=1),
    Row("for_each_ordered", None, 6, 0, an_item(16), joins=1),
    # lent texts of sixteen bytes, the leaves' texts and the whole
    Row("joining", None, 23, 0, lambda at: 16 * at.items + sum(2 * room(2 * it) for it in at.sizes), joins=1),
    Row("to_set", None, 72, 0, entries(39), joins=1),
    Row("to_map_strict", None, 72, 0, entries(44), joins=1),
    # numbers that begin with no run are sorted in place; pairs have a key of eight bytes, and their sort as much room beside
    Row("sorted", None, 50, 0, whole_list, joins=1, sorting=SORTING),
    Row("to_sorted_list", None, 50, 0, whole_list, joins=1),
    Row("sorted_by_key", None, 8, 0, an_item(32), joins=1, sorting=SORTING),
    Row("limit", None, 16, 0, of_segment, 2, 1, segmented=True),
    # (what a skip drops goes first)
    *[Row(name, None, 16, 0, lambda at: of_first(at) * 9 // 10, segmented=True) for name in ("skip", "drop_while")],
    # (a while's lists grow as items come)
    Row("take_while", None, 28, 0, lambda at: of_segment(at) * 9 // 8, 2, 1, segmented=True),
    # (the set grows by four, up to twice a power of four)
    Row("distinct", None, 28, 0, lambda at: 12 * room(2 * at.items, 2) + of_segment(at), 2, 1, segmented=True),
]


def judged(found, at, row, base):
    """Whether a run asked for as much as its row and its base tell. One worker starts no thread; several have one each, and two for each node near the
    top of the plan's tree. Where segments or streams are short, they may start none."""
    of_run, of_worker, requests = base
    items, nodes = row.items(at) if row.items else 0, (1 << (at.workers.bit_length() - 1)) - 1
    started = sum(row.runs * own + row.joins * 2 * nodes + row.sorting for _, own in at.segments if own > 1)
    is_long = row.runs == 1 and not row.segmented
    least = started if is_long else sum(own for number, own in at.segments if own > 1 and number > row.runs * FEW)
    most = int(of_run + of_worker * at.workers + 1.1 * (row.leaf * len(at.sizes) + items))
    most_requests = int(1.1 * (requests + (row.requests(at) if callable(row.requests) else row.requests * len(at.sizes))))
    is_small = 0.9 * items <= found.peak <= most and found.requests <= most_requests and abs(found.live) <= OF_THREAD * found.threads
    # (a place may be sought in more runs, and a sort has as many threads as there are processors)
    is_started = least <= found.threads <= started or found.threads > started > 0 and (row.runs > 1 or row.sorting > 0)
    return is_small and is_started or (found[3:], items, most, most_requests, started)


def findings(rows, base, run):
    """Each row at each shape."""
    for row in rows:
        for items, workers in [*SHAPES, *([] if row.items and not row.segmented else [MANY])]:
            at = shape(items, workers, row.segmented)
            found, is_answered = run(row, at)
            yield f"{workers} workers, {items} items, {row.name!r}", (is_answered, judged(found, at, row, base)), (True, True)


def main():
    need_program()
    refusing = Refusing()

    def run_pipeline(row, at):
        file = f"pipeline 2\nrange 0 {at.items}\n{row.name}\n".replace("HALF", str(at.items // 2))
        found = refusing.run([PSTREAM, "/dev/stdin", "--workers", str(at.workers)], file.encode())
        return found, found[:3] == (0, f"{row.wanted(at.items)}\n".encode(), b"")

    def run_terminal(row, at):
        found = refusing.run([TESTS, "each_terminal::the_named_are_right"], TERMINAL=row.name, ITEMS=at.items, WORKERS=at.workers)
        return found, found.status == 0

    conclude(itertools.chain(findings(PIPELINES, OF_PROGRAM, run_pipeline), findings(TERMINALS, OF_TEST, run_terminal)))


if __name__ == "__main__":
    main()
