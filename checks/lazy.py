"""Random pipelines over long ranges that the plain, lazy definition answers after few items, and their answers."""

import itertools
import random

# how many source items and copies the definition may read
CAP = 30_000


def wrap(x):
    return (x + 2**63) % 2**64 - 2**63


FUNCTIONS = {"add": lambda x, n: wrap(x + n), "mul": lambda x, n: wrap(x * n), "mod": lambda x, n: x % n, "negate": lambda x: wrap(-x)}
TESTS = {"less": int.__lt__, "greater": int.__gt__, "equals": int.__eq__, "divisible": lambda x, n: x % n == 0}


class TooMany(Exception):
    """The definition reads more than `CAP`."""


def counted(items, left):
    for x in items:
        left[0] -= 1
        if left[0] < 0:
            raise TooMany
        yield x


def through(stage, items, left):
    """What a stage makes of items, one by one."""
    match stage:
        case ["map", word, *n]:
            return (FUNCTIONS[word](x, *n) for x in items)
        case ["flatmap repeat", n]:
            return counted((x for x in items for _ in range(n)), left)
        case ["limit", n]:
            return itertools.islice(items, n)
        case ["skip", n]:
            return itertools.islice(items, n, None)
        case ["distinct"]:
            seen = set()
            return (x for x in items if x not in seen and not seen.add(x))
        case [word, test, n]:
            keep = {"filter": filter, "takewhile": itertools.takewhile, "dropwhile": itertools.dropwhile}[word]
            return keep(lambda x: TESTS[test](x, n), items)


def answer(start, end, stages, terminal):
    left = [CAP]
    items = counted(range(start, end), left)
    for stage in stages:
        items = through(stage, items, left)
    match terminal:
        case ["findfirst"]:
            return next((f"Optional[{x}]" for x in items), "Optional.empty")
        case ["tolist"]:
            return f"[{', '.join(map(str, items))}]"
        case ["count"]:
            return str(sum(1 for _ in items))
        case ["sum"]:
            return str(wrap(sum(items)))
        case [word, test, n]:
            is_hit = any(TESTS[test](x, n) != (word == "allmatch") for x in items)
            return "true" if is_hit == (word == "anymatch") else "false"


def drawn(dice):
    """A range, stages and a terminal."""
    one = dice.choice
    start = one([0, 0, 1, -7, dice.randint(-(10**6), 10**6)])
    near = lambda: one([start + dice.randint(-10, 2000), dice.randint(-20, 3000), 5, 0])
    test = lambda: one([("less", near()), ("greater", near()), ("equals", near()), ("divisible", one([2, 3, 7, 100, 1000]))])
    makers = {
        "map": lambda: one([("add", dice.randint(-10, 10)), ("mul", one([2, 3, -1, 0, 7])), ("mod", one([2, 3, 7, 10, 1000])), ("negate",)]),
        "filter": test,
        "flatmap repeat": lambda: (one([0, 1, 2, 5, 100, 1000]),),
        "limit": lambda: (one([0, 1, 3, 50, 1000, 5000]),),
        "skip": lambda: (one([0, 1, 10, 5000]),),
        "takewhile": test,
        "dropwhile": test,
        "distinct": tuple,
    }
    stages = [(word, *makers[word]()) for word in dice.choices(list(makers), k=dice.randint(1, 6))]
    matches = [(word, *test()) for word in ("anymatch", "allmatch", "nonematch")]
    terminal = one([("findfirst",), ("findfirst",), ("tolist",), ("count",), ("sum",), *matches])
    return start, start + one([10**7, 10**9, 10**12, 2**61, 2**62 - 100]), stages, terminal


def cases(number):
    """The lines of so many files behind the first, each with its answer."""
    dice = random.Random(20)
    while number:
        start, end, stages, terminal = drawn(dice)
        try:
            told = answer(start, end, stages, terminal)
        except TooMany:
            continue
        yield "\n".join(" ".join(map(str, line)) for line in [("range", start, end), *stages, terminal]), told
        number -= 1
