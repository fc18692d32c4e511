#!/usr/bin/env python3
"""Times pstream beside Java 17's streams on pipelines of random shape, so that no shape can be tuned to alone.

    bench/shapes/shapes.py [PSTREAM] [--seed S] [--count N] [--workers W] [--runs R] [--warmup SECONDS] [--keep FOLDER]

The same seed gives the same pipelines: each form of the language comes up, over ranges of millions, a file of 100,000 numbers, and a
megabyte of lines. Java's is the program that a competent user would write for the file (JavaBench.java writes it), warmed in its machine,
the better of its parallel and its sequential form ('s'). Ours is the whole process without the start of one, which is that of a pipeline
of one number. Both are the least time of some runs, and answers are compared. A line is printed for each pipeline; at the end the worst
ratios, and the geometric mean of those pipelines of which one of the two takes 2 ms or more. Times below 1 ms count as 1. The status is 1
where an answer differs or a ratio is above 1. Ten shapes take some two minutes of an idle machine.
"""

import argparse
import dataclasses
import math
import pathlib
import random
import shutil
import subprocess
import sys
import tempfile
import time

HERE = pathlib.Path(__file__).resolve().parent
PSTREAM = HERE.parent.parent / "crates" / "pstream" / "out" / "pstream"
# milliseconds from which a pipeline is told in the mean
TOLD_FROM = 2
MOST_ITEMS = 10_000_000
# most bytes of a file that the language takes
MOST_BYTES = 1_048_576
SYLLABLES = ["ka", "lo", "mi", "ster", "an", "é", "bru", "-", "tion", "x"]
STAGES = ["map"] * 3 + ["filter"] * 3 + ["flatmap", "limit", "skip", "takewhile", "dropwhile", "distinct"]
TERMINALS = ["count", "findfirst", "tolist", "allmatch", "anymatch", "nonematch", "groupby", "groupby", "partition", "tomap", "teeing"]


class Shape:
    """Writes one pipeline; knows its items' kind, about how many there are, and about how far numbers go."""

    def __init__(self, dice):
        self.dice = dice
        self.lines = ["pipeline 1"]
        self.source()
        for _ in range(dice.choice([0, 1, 1, 2, 2, 3, 4])):
            self.stage()
        self.lines.append(self.terminal())

    def source(self):
        self.kind, pick = "number", self.dice.random()
        if pick < 0.6:
            self.items = self.reach = self.dice.choice([1_000_000, 3_000_000, MOST_ITEMS, MOST_ITEMS])
            self.lines.append(f"range 0 {self.items}")
        elif pick < 0.75:
            self.items, self.reach = 100_000, 1_000_000
            self.lines.append("numbers " + " ".join(str(self.dice.randint(-10**6, 10**6)) for _ in range(self.items)))
        else:
            self.kind, self.reach = "text", 0
            texts = self.texts()
            self.items = len(texts)
            self.lines += [f"lines {len(texts)}", *texts]

    def texts(self):
        texts, size = [], 0
        while size < MOST_BYTES - 400:
            texts.append(" ".join(self.word() for _ in range(self.dice.randint(1, 3))))
            size += len(texts[-1].encode()) + 1
        return texts[:-1]

    def word(self):
        return "".join(self.dice.choices(SYLLABLES, k=self.dice.randint(1, 5)))

    def map(self):
        if self.kind == "text":
            return self.dice.choice(["length", "self"])
        name = self.dice.choice(["add", "mul", "negate", "mod", "mod"])
        number = self.dice.choice([3, 7, 100, 1000, 12345])
        if name == "mod":
            self.reach = number
        elif name == "mul":
            self.reach *= number
        return name if name == "negate" else f"{name} {number}"

    def test(self):
        if self.kind == "text":
            return self.dice.choice(["starts ka", "longer 5", "longer 12", "starts x"])
        name = self.dice.choice(["less", "greater", "divisible", "divisible"])
        number = self.dice.choice([2, 3, 7]) if name == "divisible" else int(self.reach * self.dice.random())
        return f"{name} {number}"

    def stage(self):
        name = self.dice.choice(STAGES)
        if name == "map":
            image = self.map()
            if image == "length":
                self.kind, self.reach = "number", 30
            self.lines.append(f"map {image}")
        elif name == "flatmap":
            self.flat_map()
        elif name in ("limit", "skip"):
            self.lines.append(f"{name} {int(self.items * self.dice.random())}")
        else:
            self.lines.append(name if name == "distinct" else f"{name} {self.test()}")

    def flat_map(self):
        if self.kind == "text":
            self.lines.append("flatmap words")
            return
        times = self.dice.choice([2, 4])
        if self.items * times <= MOST_ITEMS:
            self.items *= times
            self.lines.append(f"flatmap repeat {times}")

    def base(self):
        own = ["sum", "max", "min"] if self.kind == "number" else ["joining ,"]
        return self.dice.choice(["count", "first", "tolist"] + own)

    def terminal(self):
        own = ["sum", "sum", "max", "min", "product"] if self.kind == "number" else ["joining ,"]
        name = self.dice.choice(TERMINALS + own + own)
        if name in ("allmatch", "anymatch", "nonematch"):
            return f"{name} {self.test()}"
        if name == "groupby":
            key = f"mod {self.dice.choice([7, 1000])}" if self.kind == "number" else "length"
            return f"groupby {key} {self.base()}"
        if name == "partition":
            return f"partition {self.test()} {self.base()}"
        if name == "tomap":
            merger = self.dice.choice(["first", "last", "sum", "max"])
            return f"tomap mod 1000 self {merger}" if self.kind == "number" else "tomap length self first"
        if name == "teeing":
            return f"teeing {self.base()} {self.base()}"
        return name

    def name(self):
        """The lines behind the version, without the items that the file spells out."""
        source, *body = self.lines[1:]
        words = source.split()
        if words[0] == "lines":
            source, body = f"lines ({words[1]})", body[int(words[1]):]
        elif words[0] == "numbers":
            source = f"numbers ({len(words) - 1})"
        return "; ".join([source, *body])


@dataclasses.dataclass
class Times:
    """Milliseconds of both, and whether Java's sequential form was the better one."""

    ours: float
    theirs: float
    is_sequential: bool

    def is_told(self):
        return max(self.ours, self.theirs) >= TOLD_FROM

    def ratio(self):
        """Ours is never told as slower where it takes less than 2 ms."""
        ratio = max(self.ours, 1) / max(self.theirs, 1)
        return ratio if self.ours >= TOLD_FROM else min(ratio, 1.0)


def written(words, seconds=120):
    """What a command writes, and nothing where it fails or takes longer."""
    try:
        done = subprocess.run(words, stdout=subprocess.PIPE, stderr=subprocess.DEVNULL, timeout=seconds)
    except subprocess.TimeoutExpired:
        return None
    return done.stdout if done.returncode == 0 else None


def least(words, runs):
    """The least milliseconds of whole processes, and the answer."""
    best, answer = math.inf, None
    for _ in range(runs):
        start = time.perf_counter()
        answer = written(words, 60)
        if answer is None:
            return math.inf, None
        best = min(best, (time.perf_counter() - start) * 1000)
    return best, answer


def java_times(folder, file, options):
    """Java's least milliseconds, warmed, of its parallel and of its sequential form."""
    words = ["java", "-Xmx6g", "-cp", folder, "JavaBench", file, "--runs", str(options.runs), "--warmup", str(options.warmup)]
    for more in (["--workers", str(options.workers)], ["--workers", "1", "--sequential"]):
        told = written(words + more)
        yield float(told.split()[1]) if told else math.inf


def java_answer(folder, file):
    made = folder / f"{file.stem}-made"
    made.mkdir()
    subprocess.run(["java", "-cp", folder, "JavaBench", file, "--emit", made, "--sequential"], stderr=subprocess.DEVNULL)
    return written(["java", "-Xmx6g", "-cp", made, "Case", file])


def compare(folder, file, start, options):
    """The times of a pipeline, and whether the answers differ; nothing of the latter where Java has none."""
    parallel, sequential = java_times(folder, file, options)
    expected = java_answer(folder, file)
    ours, answer = least([options.pstream, file, "--workers", str(options.workers)], options.runs)
    return Times(ours - start, min(parallel, sequential), sequential < parallel), None if expected is None else answer != expected


def shapes(folder, options):
    """Each shape's times, whether its answers differ, and its name, as it is told."""
    subprocess.run(["javac", "-d", folder, HERE / "JavaBench.java"], check=True)
    one = folder / "one"
    one.write_text("pipeline 1\nnumbers 1\nsum\n")
    start, _ = least([options.pstream, one], 20)
    for number in range(options.count):
        shape = Shape(random.Random(options.seed * 1_000_003 + number))
        file = folder / f"s{options.seed}-{number}.pipeline"
        file.write_text("".join(f"{line}\n" for line in shape.lines))
        if options.keep:
            options.keep.mkdir(parents=True, exist_ok=True)
            shutil.copy(file, options.keep)
        times, differs = compare(folder, file, start, options)
        behind = {True: "  DIFFERS", False: "", None: "  (no answer of Java)"}[differs]
        ratio = times.ratio() if times.is_told() else 1.0
        print(f"{number:3} ours {times.ours:8.1f} ms  Java {times.theirs:8.1f}{'s' if times.is_sequential else ' '}  ratio {ratio:6.2f}"
              f"  {shape.name()}{behind}", flush=True)
        yield times, bool(differs), shape.name()


def main():
    parser = argparse.ArgumentParser(description=__doc__, formatter_class=argparse.RawDescriptionHelpFormatter)
    parser.add_argument("pstream", nargs="?", type=pathlib.Path, default=PSTREAM)
    parser.add_argument("--seed", type=int, default=1)
    parser.add_argument("--count", type=int, default=30)
    parser.add_argument("--workers", type=int, default=4)
    parser.add_argument("--runs", type=int, default=5)
    parser.add_argument("--warmup", type=float, default=2)
    parser.add_argument("--keep", type=pathlib.Path, help="a folder that the pipelines are written to")
    options = parser.parse_args()
    if not options.pstream.exists():
        sys.exit(f"{options.pstream} is missing: `rt run` in crates/pstream builds it")
    options.pstream = options.pstream.resolve()
    with tempfile.TemporaryDirectory() as folder:
        found = list(shapes(pathlib.Path(folder), options))
    told = sorted(((times.ratio(), name) for times, _, name in found if times.is_told()), reverse=True)
    finite = [ratio for ratio, _ in told if 0 < ratio < math.inf]
    above, wrong = sum(ratio > 1 for ratio, _ in told), sum(differs for _, differs, _ in found)
    print("worst:")
    for ratio, name in told[:8]:
        print(f"  {ratio:6.2f}  {name}")
    mean = math.exp(sum(map(math.log, finite)) / len(finite)) if finite else math.inf
    print(f"geometric mean {mean:.2f}; {above} of {len(told)} above 1; {wrong} answers differ")
    return 1 if above or wrong else 0


if __name__ == "__main__":
    sys.exit(main())
