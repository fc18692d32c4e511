#!/usr/bin/python3
"""Counts the words of a file by Dask: a task a part, and a tree of tasks that combine their lines.

    dask_words.py SCHEDULER FILE PARTS

SCHEDULER is an address as tcp://127.0.0.1:8786. Each worker sees the file, and has `word_counts` on its path.
"""

import subprocess
import sys

from distributed import Client

COMBINED = 8


def word_counts(*words, lines=""):
    """What the program writes."""
    return subprocess.run(["word_counts", *words], input=lines, capture_output=True, text=True, check=True).stdout


def part(file, places):
    return word_counts("part", file, "--from", places[0], "--to", places[1])


def combine(*lines):
    return word_counts("combine", lines="".join(lines))


def main():
    scheduler, file, parts = sys.argv[1:]
    with Client(scheduler) as client:
        places = [line.split() for line in word_counts("plan", file, "--parts", parts).splitlines()]
        tasks = [client.submit(part, file, place, retries=3) for place in places]
        while len(tasks) > 1:
            tasks = [client.submit(combine, *tasks[at : at + COMBINED]) for at in range(0, len(tasks), COMBINED)]
        sys.stdout.write(word_counts("finish", lines=tasks[0].result()))


if __name__ == "__main__":
    main()
