#!/usr/bin/env python3
"""Prints the forty tasks as a table, from the least of several readings: bench/rayon/table.py OURS LOOP RAYON JAVA [SVG].

Each file has lines `TASK-WORKERS NANOSECONDS ANSWER`. All answers of a task have to be one. SVG is a picture of the ratios to rayon's times with
four workers.
"""

import collections
import math
import sys


def readings(path):
    """The least time of each task and number of workers, and each task's answers."""
    times, answers = {}, collections.defaultdict(set)
    for line in open(path, encoding="utf-8"):
        case, time, answer = line.split()
        task, _, workers = case.rpartition("-")
        times[task, int(workers)] = min(int(time), times.get((task, int(workers)), int(time)))
        answers[task].add(answer)
    return times, answers


def mean(ratios):
    return math.exp(sum(map(math.log, ratios)) / len(ratios))


def picture(ratios):
    """The ratios as bars from one on, to the left where ours is faster, by powers of two."""
    height, middle, unit = 16, 420, 40
    rows = [f'<svg xmlns="http://www.w3.org/2000/svg" viewBox="0 0 640 {height * (len(ratios) + 2)}" font-family="sans-serif" font-size="11">']
    rows.append(f'<text x="{middle}" y="12" text-anchor="middle">time with 4 workers, divided by rayon\'s</text>')
    for at, (task, ratio) in enumerate(ratios.items()):
        y, length = height * (at + 1), unit * math.log2(ratio)
        colour = "#2a7" if ratio <= 1.1 else "#c64"
        x = middle + max(-260, min(0, length))
        rows.append(f'<text x="8" y="{y + 12}">{task}</text>')
        rows.append(f'<rect x="{x:.0f}" y="{y + 3}" width="{min(200, abs(length)):.0f}" height="{height - 5}" fill="{colour}"/>')
        rows.append(f'<text x="{x - 4 if ratio < 1 else middle + min(200, length) + 4:.0f}" y="{y + 12}" text-anchor="{"end" if ratio < 1 else "start"}">{ratio:.2f}</text>')
    rows.append(f'<line x1="{middle}" y1="16" x2="{middle}" y2="{height * (len(ratios) + 1)}" stroke="black"/></svg>')
    return "\n".join(rows) + "\n"


def main():
    (ours, told), (loop, *_), (rayon, *_), (java, *_) = map(readings, sys.argv[1:5])
    for path in sys.argv[2:5]:
        for task, answers in readings(path)[1].items():
            if len(answers | told[task]) != 1:
                sys.exit(f"{task}: {told[task]}, and {path} has {answers}")
    print("| task | ours, 1 worker, ms | of the loop | ours, 4, ms | of rayon | of Java |\n|---|---|---|---|---|---|")
    tasks = list(dict.fromkeys(task for task, _ in ours))
    of_loop = {task: ours[task, 1] / loop[task, 1] for task in tasks}
    of_rayon, of_java = ({task: ours[task, 4] / peer[task, 4] for task in tasks} for peer in (rayon, java))
    for task in tasks:
        print(f"| {task} | {ours[task, 1] / 1e6:.3f} | {of_loop[task]:.2f} | {ours[task, 4] / 1e6:.3f} | {of_rayon[task]:.2f} | {of_java[task]:.2f} |")
    print(f"| geometric mean | | {mean(of_loop.values()):.2f} | | {mean(of_rayon.values()):.2f} | {mean(of_java.values()):.2f} |")
    print(f"above 1.1 of rayon: {sum(it > 1.1 for it in of_rayon.values())} of {len(tasks)}; above 1.3 of the loop: {sum(it > 1.3 for it in of_loop.values())}")
    if len(sys.argv) > 5:
        open(sys.argv[5], "w", encoding="utf-8").write(picture(of_rayon))


main()
