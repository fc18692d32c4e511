#!/usr/bin/env python3
"""Runs each case here and in its peers, side by side in one run, and prints ratios.

    bench/run.py [--turns N] [--only WORD]

The machine is shared and noisy, so a case and its peers take turns of two seconds each, the best run of each counts, and only ratios are
told. `bench/FOLDER/cases.py` names the cases of a layer; a peer is a Rust file beside it, built by `rustc -O`, a Java file, built by
`javac`, or a line of awk. Ours is the whole process. Only a warmed Java program tells its own time: that of its best round, without the
start of its machine. Beside it ours is told more than once: the whole process; where the case has a program of ours that runs it many
times in one process, warmed as well; and without the start of a process, which is what `true` takes in the same run. The limit is for
the last of these. A case that the program refuses is told as such. The program has to be built before (`rt run` in crates/pstream). The
status is 1 where a ratio lies above its limit, or a case is refused.
"""

import argparse
import dataclasses
import importlib.util
import pathlib
import shutil
import subprocess
import sys
import tempfile
import time

BENCH = pathlib.Path(__file__).resolve().parent
PSTREAM = BENCH.parent / "crates" / "pstream" / "out" / "pstream"
BUILT = BENCH / "out"
# seconds of a turn; a warmed Java program takes as long
TURN = 2


@dataclasses.dataclass
class Peer:
    """A command that writes what ours writes, and the most that ours may take, in times of it, where there is a limit."""

    name: str
    command: list
    limit: float | None = None
    # It writes the nanoseconds of its best round to standard error.
    tells_time: bool = False
    # It runs in the first turn alone.
    slow: bool = False


@dataclasses.dataclass
class Case:
    """What is compared: our command, and its peers; and the folder of a program of ours, if there is one, that takes the same words, runs
    them many times, and tells the time of its best round as Java's do."""

    name: str
    ours: list
    peers: list
    warmed: pathlib.Path | None = None


class Tools:
    """What the cases of a layer are made with."""

    Case = Case
    Peer = Peer
    pstream = PSTREAM

    def rust(self, source):
        """The program of a Rust file, built anew where the file is younger."""
        program = BUILT / source.stem
        if is_older(program, source):
            subprocess.run(["rustc", "--edition", "2021", "-O", "-C", "target-cpu=x86-64-v2", "-o", program, source], check=True)
        return program

    def java(self, source):
        """The words before those of a Java program, built anew where the file is younger."""
        if is_older(BUILT / f"{source.stem}.class", source):
            subprocess.run(["javac", "-d", BUILT, source], check=True)
        # three threads beside the one that calls
        return ["java", "-cp", BUILT, "-Djava.util.concurrent.ForkJoinPool.common.parallelism=3", source.stem]

    def rattle(self, folder):
        """A program over our crates, built anew where `pstream` is younger; that takes minutes."""
        program = BUILT / folder.name
        if is_older(program, PSTREAM):
            lines = (BENCH.parent / "crates.txt").read_text().splitlines()
            names = [line.split(":")[0].split()[0] for line in lines if line and not line.startswith("#")]
            with tempfile.TemporaryDirectory() as work:
                crates = " ".join(name for name in names if name != "pstream")
                subprocess.run([BENCH / "lay_out", work, folder, crates, "pipeline_runner"], check=True)
                shutil.copy(pathlib.Path(work, "crates", folder.name, "out", folder.name), program)
        return program

    def file(self, name, lines):
        """A file of these lines."""
        path = BUILT / f"{name}.pipeline"
        path.write_text("".join(f"{line}\n" for line in lines))
        return path


def is_older(built, source):
    return not built.exists() or built.stat().st_mtime < source.stat().st_mtime


def cases():
    for path in sorted(BENCH.glob("*/cases.py")):
        spec = importlib.util.spec_from_file_location(f"cases_{path.parent.name}", path)
        module = importlib.util.module_from_spec(spec)
        spec.loader.exec_module(module)
        yield from module.cases(Tools())


def run(command, tells_time=False):
    """How long one run took, in seconds, and what it wrote."""
    start = time.perf_counter()
    done = subprocess.run(command, capture_output=True, check=True)
    taken = int(done.stderr) / 1e9 if tells_time else time.perf_counter() - start
    return taken, done.stdout


def take_turn(command):
    """The best time of the runs of a turn, and what they wrote."""
    start = time.perf_counter()
    best, written = run(command)
    while time.perf_counter() - start < TURN:
        taken, again = run(command)
        if again != written:
            sys.exit(f"{command}: wrote {again[:200]!r} after {written[:200]!r}")
        best = min(best, taken)
    return best, written


def best_times(case, turns):
    """The best time of ours, of ours warmed, and of each peer."""
    warm = [Tools().rattle(case.warmed), *case.ours[1:]] if case.warmed else None
    ours, warmed, peers = [], [], [[] for _ in case.peers]
    for turn in range(turns):
        taken, written = take_turn(case.ours)
        ours.append(taken)
        if warm:
            taken, wanted = run(warm, True)
            warmed.append(taken)
            if written != wanted:
                sys.exit(f"{case.name}: wrote {written[:200]!r}, and warmed {wanted[:200]!r}")
        for peer, times in zip(case.peers, peers):
            if peer.slow and turn > 0:
                continue
            taken, wanted = run(peer.command, True) if peer.tells_time else take_turn(peer.command)
            times.append(taken)
            if written != wanted:
                sys.exit(f"{case.name}: wrote {written[:200]!r}, and {peer.name} {wanted[:200]!r}")
    return min(ours), min(warmed, default=None), [min(times) for times in peers]


def told_ratios(peer, ours, warmed, theirs, start):
    """What is told of a peer: names and ratios, of which the last is held to the limit."""
    yield peer.name, ours / theirs
    if peer.tells_time:
        if warmed:
            yield f"{peer.name}, warmed as well", warmed / theirs
        yield f"{peer.name}, without the start of a process", (ours - start) / theirs


def refusal(case):
    """What the program says of a case that it can't do."""
    done = subprocess.run(case.ours, capture_output=True)
    return done.stderr.decode().strip() if done.returncode else None


def main():
    parser = argparse.ArgumentParser()
    parser.add_argument("--turns", type=int, default=3)
    parser.add_argument("--only", default="", help="cases whose name has this word")
    options = parser.parse_args()
    if not PSTREAM.exists():
        sys.exit("crates/pstream/out/pstream is missing: `rt run` in crates/pstream builds it")
    BUILT.mkdir(exist_ok=True)
    missed = 0
    for case in cases():
        if options.only not in case.name:
            continue
        if refused := refusal(case):
            missed += 1
            print(f"{case.name}: today's program refuses it: {refused}", flush=True)
            continue
        ours, warmed, peers = best_times(case, options.turns)
        start, _ = take_turn(["true"])
        for peer, time_taken in zip(case.peers, peers):
            ratios = list(told_ratios(peer, ours, warmed, time_taken, start))
            for name, found in ratios[:-1]:
                print(f"{case.name}: {found:.3g} times {name}", flush=True)
            name, found = ratios[-1]
            above = peer.limit is not None and found > peer.limit
            missed += above
            limit = "" if peer.limit is None else f" (at most {peer.limit}{', MISSED' if above else ''})"
            print(f"{case.name}: {found:.3g} times {name}{limit}", flush=True)
    sys.exit(1 if missed else 0)


if __name__ == "__main__":
    main()
