#!/usr/bin/env python3
"""One table of the service's cases: milliseconds, and how they stand to a plain loop and to Java's streams.

    bench/service/table.py OURS LOOPS JAVA

Each is a file of lines `WORK-WORKERSxITEMS NANOSECONDS VALUE..`, a line a reading, of which the least counts. All readings of a case have to give one
value, in every file; Java's may lack a case. Status 1: a case takes more than twice the loop with one worker, or with four more than Java's best.
"""

import os
import sys

sys.path.insert(0, os.path.join(os.path.dirname(os.path.abspath(__file__)), ".."))
from compare import least

MOST_OF_LOOP = 2.0
MOST_OF_JAVA = 1.0


def milliseconds(time):
    return f"{time / 1e6:.1f}" if time >= 1e7 else f"{time / 1e6:.2f}"


def row(work, items, ours, loops, java):
    """The cells of a case, and whether it is above one of the bounds."""
    one, four = f"{work}-1x{items}", f"{work}-4x{items}"
    loop = min(loops[one], loops[four])
    of_loop = [ours[one] / loop, ours[four] / loop]
    cells = [work, milliseconds(ours[one]), milliseconds(ours[four]), milliseconds(loop), f"{of_loop[0]:.2f}", f"{of_loop[1]:.2f}"]
    of_java = 0.0
    if one in java:
        of_java = ours[four] / min(java[one], java[four])
        cells += [milliseconds(java[one]), milliseconds(java[four]), f"{of_java:.2f}"]
    return cells, of_loop[0] > MOST_OF_LOOP or of_java > MOST_OF_JAVA


def main():
    (ours, values), *peers = [least(path) for path in sys.argv[1:]]
    for _, told in peers:
        for case in told:
            if told[case] != values[case]:
                sys.exit(f"{case}: {values[case]}, and {told[case]}")
    loops, java = [times for times, _ in peers]
    print("| case | ours, 1 worker | 4 workers | a plain loop | of that, 1 | 4 | Java's, 1 thread | 4 threads | ours at 4 of Java's best | |")
    print("|---|---|---|---|---|---|---|---|---|---|")
    number = 0
    for case in ours:
        work, size = case.rsplit("-", 1)
        if not size.startswith("1x"):
            continue
        cells, is_above = row(work, size[2:], ours, loops, java)
        number += is_above
        cells += [""] * (9 - len(cells)) + ["above" if is_above else ""]
        print(f"| {' | '.join(cells)} |")
    sys.exit(number > 0)


if __name__ == "__main__":
    main()
