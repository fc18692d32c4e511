#!/usr/bin/env python3
"""Checks the built program `weblog` on a log of some 60 MB, whose answers the script knows since it made each line of known parts.

    checks/weblog.py

The log is read from its file and through a pipe, with 1 and 4 workers, in less memory than it has bytes, and with its progress and its timeline. Then
come logs that end early, that are no text or that can't be read, and outputs that can't be written. `rt ci` leaves the program built, and `rt run` in
crates/weblog builds it.
"""

import collections
import pathlib
import random
import re
import resource
import subprocess
import sys
import tempfile
import xml.etree.ElementTree

from built import ROOT, conclude

WEBLOG = ROOT / "crates" / "weblog" / "out" / "weblog"
LINES = 800_000
# the bytes of address space in which a log is read, by how many workers: each has a stack of its own
LITTLE_MEMORY = {"1": 50_000_000, "4": 210_000_000}
SVG, FULL = "{http://www.w3.org/2000/svg}", "/dev/full: No space left on device (os error 28)"
# lines with a fault, and what is told of them
BAD = [
    ("", "no client"),
    ("10.0.0.1", "no client"),
    ('10.0.0.1 - [29/Nov/2026:00:00:00 +0000] "GET / HTTP/1.1" 200 1', "no client"),
    (' - - [29/Nov/2026:00:00:00 +0000] "GET / HTTP/1.1" 200 1', "no client"),
    ('10.0.0.1 - - [29/Nov/2026:24:00:00 +0000] "GET / HTTP/1.1" 200 1', "no time"),
    ('10.0.0.1 - - [29/Nov/2026:-1:00:00 +0000] "GET / HTTP/1.1" 200 1', "no time"),
    ('10.0.0.1 - - [29/Nov/2026:00:00:00 +0000 "GET / HTTP/1.1" 200 1', "no time"),
    ("10.0.0.1 - - [29/Nov/2026] ", "no time"),
    ('10.0.0.1 - - [29/Nov/2026:00:00:00 +0000] "GET" 200 1', "no path"),
    ('10.0.0.1 - - [29/Nov/2026:00:00:00 +0000] "GET /" 200 1', "no path"),
    ('10.0.0.1 - - [29/Nov/2026:00:00:00 +0000] "GET  HTTP/1.1" 200 1', "no path"),
    ('10.0.0.1 - - [29/Nov/2026:00:00:00 +0000] "GET / HTTP/1.1" 99 1', "no status"),
    ('10.0.0.1 - - [29/Nov/2026:00:00:00 +0000] "GET / HTTP/1.1" 600 1', "no status"),
    ('10.0.0.1 - - [29/Nov/2026:00:00:00 +0000] "GET / HTTP/1.1" - 1', "no status"),
    ('10.0.0.1 - - [29/Nov/2026:00:00:00 +0000] "GET / HTTP/1.1" 200', "no bytes"),
    ('10.0.0.1 - - [29/Nov/2026:00:00:00 +0000] "GET / HTTP/1.1" 200 -5', "no bytes"),
    ('10.0.0.1 - - [29/Nov/2026:00:00:00 +0000] "GET / HTTP/1.1" 200 9223372036854775808', "no bytes"),
]

Request = collections.namedtuple("Request", "client hour minute path status sent")


def entries(count):
    """So many lines: each a request, or a pair of a bad line and what is told of it."""
    chance = random.Random(17)
    clients = [f"10.{a}.{b}.{c}" for a in range(5) for b in range(10) for c in range(100)]
    paths = [f"/orders/{number}" for number in range(500)] + ["/", "/index.html", "/style.css", "/h\u00e9lp", "/empty"]
    weights = [1] * 500 + [400, 300, 200, 100, 50]
    columns = (
        chance.choices(clients, k=count), sorted(chance.choices(range(24), k=count)), chance.choices(range(60), k=count),
        chance.choices(paths, weights, k=count), chance.choices([200, 304, 404, 500, 503], [900, 50, 40, 6, 4], k=count),
        chance.choices(["-", *map(str, range(10_000))], k=count),
    )
    for at, row in enumerate(zip(*columns)):
        yield chance.choice(BAD) if at % 9973 == 5000 else Request(*row)


def text_of(entry):
    if not isinstance(entry, Request):
        return entry[0]
    client, hour, minute, path, status, sent = entry
    return f'{client} - - [29/Nov/2026:{hour:02}:{minute:02}:59 +0000] "GET {path} HTTP/1.1" {status} {sent}'


def answers(log, name="standard input"):
    """What is written of a log, on standard output and on standard error, and the status."""
    requests = [entry for entry in log if isinstance(entry, Request)]
    bad = [(at, entry[1]) for at, entry in enumerate(log, 1) if not isinstance(entry, Request)]
    hours = collections.Counter()
    for request in requests:
        hours[request.hour] += 0 if request.sent == "-" else int(request.sent)
    failure = next((f"{request.status} {request.path}" for request in requests if request.status >= 500), "none")
    told = lambda counts: "{" + ", ".join(f"{key}: {value}" for key, value in counts.items()) + "}"
    lines = [
        f"requests by status: {told(collections.Counter(request.status for request in requests))}",
        *(f"path {path}: {count}" for path, count in collections.Counter(request.path for request in requests).most_common(3)),
        f"first failure: {failure}", f"clients: {len({request.client for request in requests})}",
        f"bytes by hour: {told(hours)}", f"bad lines: {len(bad)}",
    ]
    errors = [f"weblog: {name}: bad lines: {len(bad)}", *(f"line {at}: {fault}" for at, fault in bad[:10])] if bad else []
    return int(bool(bad)), "".join(f"{line}\n" for line in lines), "".join(f"{line}\n" for line in errors)


def run(*words, **streams):
    """Status, standard output and standard error of one run."""
    done = subprocess.run([WEBLOG, *words], **{"stdout": subprocess.PIPE, "stderr": subprocess.PIPE, "timeout": 60} | streams)
    return done.returncode, (done.stdout or b"").decode(), done.stderr.decode()


def in_little_memory(file, workers):
    """Whether a run in less memory than its file has bytes does so, and what it gives."""
    most = LITTLE_MEMORY[workers]
    limit = lambda: resource.setrlimit(resource.RLIMIT_AS, (most, most))
    return file.stat().st_size > most, *run(file, "--workers", workers, preexec_fn=limit)


def whole_log(file, log):
    wanted, piped = answers(log, file), answers(log)
    for workers in ("1", "4"):
        yield f"from the file, {workers} workers", run(file, "--workers", workers), wanted
        with subprocess.Popen(["cat", file], stdout=subprocess.PIPE) as pipe:
            yield f"through a pipe, {workers} workers", run("--workers", workers, stdin=pipe.stdout), piped
    yield "in little memory, 1 worker", in_little_memory(file, "1"), (True, *wanted)
    four = file.with_name("four")
    four.write_bytes(4 * file.read_bytes())
    yield "four times as long in little memory, 4 workers", in_little_memory(four, "4"), (True, *answers(4 * log, four))
    status, output, error = run(file, "--progress")
    yield "with its progress: the answers", (status, output), wanted[:2]
    yield "with its progress: a line of it", "\n100%, " in error and error.endswith(wanted[2]), True
    with open(file, "rb") as text:
        yield "with its progress, of a file as standard input", "\n100%, " in run("--progress", stdin=text)[2], True
    with subprocess.Popen(["cat", file], stdout=subprocess.PIPE) as pipe:
        yield "with its progress, through a pipe", len(re.findall(" MB, .* a second\n", run("--progress", stdin=pipe.stdout)[2])), 7
    yield from timelines(file, wanted)


def timelines(file, wanted):
    """Pictures of which worker ran which leaf, and files that can't be written."""
    picture = file.with_name("timeline.svg")
    for workers in ("1", "4"):
        yield f"with its timeline: the answers, {workers} workers", run(file, "--workers", workers, "--timeline", picture), wanted
        shown = xml.etree.ElementTree.parse(picture).getroot()
        rows = [row for row in shown.iter(f"{SVG}g") if "worker" in "".join(row.itertext())]
        leaves = len(list(shown.iter(f"{SVG}title")))
        blocks = file.stat().st_size // 8_388_608
        yield f"with its timeline: rows and leaves, {workers} workers", (len(rows), leaves >= blocks * int(workers)), (int(workers), True)
    none = file.with_name("none") / "picture"
    yield "a timeline in no folder", run(file, "--timeline", none), (3, "", f"weblog: {none}: No such file or directory (os error 2)\n")
    yield "a timeline that is full", run("--timeline", "/dev/full", input=b""), (3, answers([])[1], f"weblog: {FULL}\n")
    yield "a timeline that is full, and bad lines", run(file, "--timeline", "/dev/full"), (*wanted[:2], f"{FULL}\n{wanted[2]}")


def other_logs(log, folder):
    """Logs that end early, or at once; that are no text; that can't be read."""
    text = "\n".join(map(text_of, log[:4000])).encode()
    cut = len("\n".join(map(text_of, log[:3000])).encode())
    command = f"head -c {cut - 8} {folder / 'front'}; kill -9 $$"
    (folder / "front").write_bytes(text)
    with subprocess.Popen(["sh", "-c", command], stdout=subprocess.PIPE) as pipe:
        yield "a writer that is killed", run(stdin=pipe.stdout), answers([*log[:2999], ("", "no status")])
    yield "no line", run(input=b""), answers([])
    yield "an end without a line feed", run(input=text_of(log[0]).encode()), answers(log[:1])
    yield "more words behind the bytes", run(input=text_of(log[0]).encode() + b' "-" "curl"\n'), answers(log[:1])
    for place in (0, cut, len(text)):
        file = folder / "bytes"
        file.write_bytes(text[:place] + b"\xff" + text[place:])
        yield f"a byte that is no text at {place}", run(file), (1, "", f"weblog: {file}: not UTF-8 at byte {place}\n")
    long = b"a" * 8_400_000
    yield "a line that is too long", run(input=b"b\n" + long), (1, "", "weblog: standard input: a line that is too long begins at byte 2\n")
    yield "a folder", run(folder), (3, "", f"weblog: {folder}: Is a directory (os error 21)\n")
    none = folder / "none"
    yield "no such file", run(none), (3, "", f"weblog: {none}: No such file or directory (os error 2)\n")


def outputs(folder):
    """Outputs that can't be written, and command lines."""
    file = folder / "front"
    with open("/dev/full", "wb") as full:
        for words in [file], ["--help"]:
            status, _, error = run(*words, stdout=full)
            yield f"an output that is full: {words[0]}", (status, error.splitlines()[-1][:23]), (3, "weblog: standard output")
    done = subprocess.run(["sh", "-c", f"{WEBLOG} {file} >&-"], capture_output=True)
    yield "an output that is closed", (done.returncode, done.stderr.decode().splitlines()[-1][:23]), (3, "weblog: standard output")
    for words in ["--workers", "0"], ["--workers", "65"], ["--workers"], ["a", "b"], ["--other"]:
        status, output, error = run(*words)
        yield "weblog " + " ".join(words), (status, output, error.startswith("error: ")), (2, "", True)
    status, output, error = run("--help")
    yield "weblog --help", (status, "Usage: weblog" in output, error), (0, True, "")


def findings():
    log = list(entries(LINES))
    with tempfile.TemporaryDirectory() as name:
        folder = pathlib.Path(name)
        file = folder / "log"
        file.write_text("".join(f"{text_of(entry)}\n" for entry in log))
        yield from whole_log(file, log)
        yield from other_logs(log, folder)
        yield from outputs(folder)


if __name__ == "__main__":
    if not WEBLOG.exists():
        sys.exit(f"{WEBLOG.relative_to(ROOT)} is missing: `rt ci` leaves it, and `rt run` in crates/weblog builds it")
    conclude(findings())
