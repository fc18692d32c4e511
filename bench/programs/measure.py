#!/usr/bin/env python3
"""Measures the programs weblog and orders beside their peers; bench/programs/run calls it.

    bench/programs/measure.py FOLDER ROUNDS MEGABYTES

FOLDER has the peers, built, and takes the data.
"""

import csv
import io
import os
import pathlib
import random
import subprocess
import sys
import time

ROOT = pathlib.Path(__file__).resolve().parent.parent.parent
sys.path.insert(0, str(ROOT / "checks"))
import services
import weblog


def commands(folder, name):
    """For each program and number of workers the words of its command, and its variables."""
    for workers in ("1", "4"):
        yield "ours", workers, [ROOT / "crates" / name / "out" / name, "--workers", workers], {}
        yield "rayon", workers, [folder / "by_rayon/target/release" / name], {"RAYON_NUM_THREADS": workers}
        # (the twin of orders reads no quotes, since Java has no reader of CSV)
        if name == "weblog":
            yield "Java", workers, ["java", "-cp", folder, "Weblog", "--workers", workers], {}
            yield "rayon over lines", workers, [folder / "by_rayon/target/release/weblog_lines"], {"RAYON_NUM_THREADS": workers}
            yield "blocks by hand", workers, [folder / "by_rayon/target/release/weblog_blocks"], {"RAYON_NUM_THREADS": workers}


def measured(words, variables, data, is_piped):
    """What a run writes, its seconds by the clock, and its most memory in megabytes, as GNU time tells it."""
    told = data.with_name("memory")
    begun = time.monotonic()
    source = subprocess.Popen(["cat", data], stdout=subprocess.PIPE) if is_piped else None
    words = ["/usr/bin/time", "-q", "-f", "%M", "-o", told, *words, *([] if is_piped else [data])]
    with subprocess.Popen(words, stdin=source and source.stdout, stdout=subprocess.PIPE, stderr=subprocess.DEVNULL, env=os.environ | variables) as run:
        if source:
            source.stdout.close()
        output = run.stdout.read().decode()
    return output.replace("=", ": "), time.monotonic() - begun, int(told.read_text()) / 1024


def made_log():
    """The log of the check."""
    return "".join(f"{weblog.text_of(entry)}\n" for entry in weblog.entries(weblog.LINES))


def made_orders():
    """The orders of the check, without the line of names."""
    rows = io.StringIO()
    csv.writer(rows, lineterminator="\n").writerows(services.made_orders(random.Random(1)))
    return rows.getvalue()


def write_again(file, first, text, megabytes):
    """A text again and again, behind a first line."""
    with open(file, "w", encoding="utf-8") as data:
        data.write(first)
        for _ in range(max(1, round(megabytes * 1_000_000 / len(text)))):
            data.write(text)


def measure(folder, name, data, rounds):
    """Runs a program and its peers, turn by turn."""
    found, outputs = {}, set()
    for _ in range(rounds):
        for is_piped in (False, True):
            for peer, workers, words, variables in commands(folder, name):
                output, seconds, memory = measured(words, variables, data, is_piped)
                outputs.add(output)
                case = f"{name}: {peer}, {workers} workers, from a {'pipe' if is_piped else 'file'}"
                least, most = found.get(case, (seconds, memory))
                found[case] = min(least, seconds), max(most, memory)
    for case, (seconds, memory) in found.items():
        print(f"{case}: {seconds:.2f} seconds, {memory:.0f} MB")
    if len(outputs) != 1:
        sys.exit(f"{len(outputs)} answers that differ: {outputs}")


def main():
    folder, rounds, megabytes = pathlib.Path(sys.argv[1]), int(sys.argv[2]), int(sys.argv[3])
    write_again(folder / "log", "", made_log(), megabytes)
    measure(folder, "weblog", folder / "log", rounds)
    write_again(folder / "orders.csv", "customer,cents\n", made_orders(), megabytes)
    measure(folder, "orders", folder / "orders.csv", rounds)


if __name__ == "__main__":
    main()
