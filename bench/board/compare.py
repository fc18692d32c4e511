#!/usr/bin/env python3
"""Runs the boards and their peers in turn, and prints the ratios of their least times. Words: compare.py OURS PEERS ROUNDS"""

import subprocess
import sys
import time

# what is done, how often, and the ratio that it may cost
CASES = (("steps", 200, 3.0), ("make", 2000, 2.0))


def seconds(program, name, times):
    """How long one run took, and what it wrote."""
    start = time.perf_counter()
    done = subprocess.run([program, name, str(times)], stdout=subprocess.PIPE, check=True)
    return time.perf_counter() - start, done.stdout


def ratio(ours, peer, name, times, rounds):
    ours_took, peer_took = [], []
    for _ in range(rounds):
        taken, written = seconds(ours, name, times)
        ours_took.append(taken)
        taken, wanted = seconds(peer, name, times)
        peer_took.append(taken)
        if written != wanted:
            sys.exit(f"{name}: wrote {written!r}, and the peer {wanted!r}")
    return min(ours_took) / min(peer_took)


def main():
    ours, peers, rounds = sys.argv[1], sys.argv[2], int(sys.argv[3])
    above = 0
    for name, times, limit in CASES:
        found = ratio(ours, f"{peers}/peer_{name}", name, times, rounds)
        above += found > limit
        print(f"{name}: {found:.2f} times the peer (at most {limit})")
    sys.exit(1 if above else 0)


if __name__ == "__main__":
    main()
