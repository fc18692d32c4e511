#!/usr/bin/env python3
"""Compares the least times of each case: ours beside each peer's.

    bench/compare.py OURS NAME=PEER.. [--at-most RATIO CASE..].. [--beside-one-worker]

OURS and each PEER are files of lines `CASE NANOSECONDS VALUE..`, a line a reading. All readings of a case have to give one value, in
every file. A peer may lack a case. Status 1: a case cost more than the ratio that it may.
"""

import argparse
import sys


def least(path):
    """Each case's least time, and the value that all its readings gave."""
    times, values = {}, {}
    with open(path) as lines:
        for line in lines:
            case, time, *value = line.split()
            times[case] = min(int(time), times.get(case, int(time)))
            if values.setdefault(case, value) != value:
                sys.exit(f"{case}: {values[case]}, and then {value}")
    return times, values


def limits(options):
    """What a case may cost, as a multiple of its peer."""
    return {case: float(ratio) for ratio, *cases in options.at_most for case in cases}


def above(ours, values, name, peer, limit):
    """Tells the ratio of each case that the peer has too; the number of those above their limit."""
    times, peer_values = least(peer)
    number = 0
    for case in ours:
        if case not in times:
            continue
        if peer_values[case] != values[case]:
            sys.exit(f"{case}: {values[case]}, and {name} gave {peer_values[case]}")
        ratio = ours[case] / times[case]
        number += case in limit and ratio > limit[case]
        wanted = f" (at most {limit[case]})" if case in limit else ""
        print(f"{case}: {ratio:.2f} times {name}{wanted}")
    return number


def beside_one_worker(ours):
    """Tells how much faster each case `WORK-WORKERSxITEMS` is than the same work of one worker."""
    for case in ours:
        work, workers = case.split("x")[0].rsplit("-", 1)
        alone = f"{work}-1x{case.split('x', 1)[1]}"
        if workers != "1" and alone in ours:
            print(f"{case}: {ours[alone] / ours[case]:.2f} times as fast as {alone}")


def main():
    parser = argparse.ArgumentParser()
    parser.add_argument("ours")
    parser.add_argument("peers", nargs="+", metavar="NAME=PEER")
    parser.add_argument("--at-most", nargs="+", action="append", default=[], metavar="RATIO CASE")
    parser.add_argument("--beside-one-worker", action="store_true", help="tell how much faster each case is than one worker")
    options = parser.parse_args()
    ours, values = least(options.ours)
    peers = [peer.split("=", 1) for peer in options.peers]
    number = sum(above(ours, values, name, path, limits(options)) for name, path in peers)
    if options.beside_one_worker:
        beside_one_worker(ours)
    sys.exit(number > 0)


if __name__ == "__main__":
    main()
