#!/usr/bin/env python3
"""Runs the built programs `orders` and `numbers` on large data of a fixed seed, and compares their answers with those of a plain Python.

    checks/services.py

The orders stand in a CSV text, which is read as a file and through a pipe, and in a table of a SQLite database, which stays as it is. The numbers
stand in a file of more bytes than the program may use. Then come faults: of the data, of the files, of the command line and of standard output.
`rt ci` leaves the programs built.
"""

import collections
import contextlib
import csv
import json
import os
import pathlib
import random
import resource
import sqlite3
import subprocess
import sys
import tempfile

from built import ROOT, conclude

ORDERS, NUMBERS = 1_000_000, 3_000_000
BOUND = 2**31
# what `orders` and `numbers` may use of addresses, less than their files have bytes: with one worker
LIMIT = 48 << 20
# so often the orders stand in a file of more bytes
AGAIN = 4
TABLE = 'all "orders"'
QUOTED = '"' + TABLE.replace('"', '""') + '"'


def run(name, *words, limit=None, **streams):
    """Status, standard output and standard error of one run, under so many bytes of addresses."""
    limits = {"preexec_fn": lambda: resource.setrlimit(resource.RLIMIT_AS, (limit, limit))} if limit else {}
    streams = {"stdout": subprocess.PIPE, "stdin": subprocess.DEVNULL} | streams
    done = subprocess.run([ROOT / "crates" / name / "out" / name, *words], stderr=subprocess.PIPE, timeout=60, check=False, **limits, **streams)
    return done.returncode, (done.stdout or b"").decode(), done.stderr.decode()


def made_orders(draw):
    """Customers and cents; those who spend most have names that CSV and JSON write otherwise."""
    names = [f"customer {n}" for n in range(2_000)] + ["Ann, Bob", 'the "best"', "Zoë", "back\\slash", "a\tb"] * 3
    return list(zip(draw.choices(names, k=ORDERS), draw.choices(range(-500, 100_000), k=ORDERS), strict=True))


def spent_most(orders):
    """What `orders` writes."""
    sums = {}
    for customer, cents in orders:
        if cents > 1000:
            sums[customer] = sums.get(customer, 0) + cents
    most = sorted(sums.items(), key=lambda entry: -entry[1])[:10]
    return json.dumps([{"customer": name, "cents": cents} for name, cents in most], ensure_ascii=False, separators=(",", ":")) + "\n"


def answers(numbers):
    """What `numbers` writes."""
    digits = collections.Counter(number % 10 for number in numbers)
    first = next((number for number in numbers if number > 999_990), "none")
    return (
        f"sum of the squares of even ones: {sum(number * number for number in numbers if number % 2 == 0)}\n"
        f"above 900000: {sum(number > 900_000 for number in numbers)}\n"
        f"first above 999990: {first}\n"
        f"all below 1000003: {str(max(numbers) < 1_000_003).lower()}\n"
        f"that differ: {len(set(numbers))}\n"
        f"greatest: {sorted(numbers)[:-4:-1]}\n"
        f"by last digit: {dict(digits)}\n"
    )


def folded(orders):
    """Orders of customers whose names have line feeds."""
    return [(f"{customer}\n\r\n{customer}", cents) for customer, cents in orders[:100_000]]


def write_orders(folder, orders):
    """The orders as a text and as a table, and each with a bad row in its middle; and some of customers whose names have line feeds."""
    for name in ["orders.csv", "bad.csv"]:
        with (folder / name).open("w", newline="") as file:
            rows = csv.writer(file, lineterminator="\n")
            rows.writerow(["customer", "cents"])
            rows.writerows(orders[: ORDERS // 2])
            if name == "bad.csv":
                rows.writerow(["Ann", "12.50"])
            rows.writerows(orders[ORDERS // 2 :])
    text = (folder / "orders.csv").read_text()
    header, rows = text.split("\n", 1)
    (folder / "many.csv").write_text(f"{header}\n{rows * AGAIN}")
    with (folder / "folded.csv").open("w", newline="") as file:
        csv.writer(file).writerows([("customer", "cents"), *folded(orders)])
    with contextlib.closing(sqlite3.connect(folder / "orders.db")) as database, database:
        database.execute(f"CREATE TABLE {QUOTED} (place INTEGER PRIMARY KEY, cents INTEGER, customer TEXT)")
        database.executemany(f"INSERT INTO {QUOTED} (customer, cents) VALUES (?, ?)", orders)
        database.execute("CREATE TABLE bad (customer TEXT, cents INTEGER)")
        database.executemany("INSERT INTO bad VALUES (?, ?)", [("Ann", 5_000), ("Bob", "five"), (None, 7_000)])


def of_orders(folder, orders):
    """Names of runs of `orders` with what they write, and what Python computes."""
    wanted = (0, spent_most(orders), "")
    text, database = folder / "orders.csv", folder / "orders.db"
    for workers in "14":
        yield f"orders of a file, {workers} workers", run("orders", text, "--workers", workers), wanted
        yield f"orders of a table, {workers} workers", run("orders", database, "--table", TABLE, "--workers", workers), wanted
    with subprocess.Popen(["cat", text], stdout=subprocess.PIPE) as pipe:
        yield "orders of a pipe", run("orders", stdin=pipe.stdout), wanted
    with subprocess.Popen(["cat", database], stdout=subprocess.PIPE) as pipe:
        yield "orders of a table of a pipe", run("orders", "--table", TABLE, stdin=pipe.stdout), wanted
    many = folder / "many.csv"
    wanted_of_many = (0, spent_most(orders * AGAIN), "")
    held = run("orders", many, "--workers", "1", limit=LIMIT)
    yield "orders of fewer bytes than the file", (LIMIT < many.stat().st_size, held), (True, wanted_of_many)
    yield "orders of many batches, 4 workers", run("orders", many), wanted_of_many
    yield "orders with line feeds in quotes", run("orders", folder / "folded.csv"), (0, spent_most(folded(orders)), "")
    watched = run("orders", text, "--progress")
    yield "orders with progress", (watched[:2], "\n100%, " in watched[2]), (wanted[:2], True)
    with contextlib.closing(sqlite3.connect(folder / "logged.db")) as logged:
        logged.execute("PRAGMA journal_mode = wal")
        logged.execute("CREATE TABLE orders (customer TEXT, cents INTEGER)")
        logged.executemany("INSERT INTO orders VALUES (?, ?)", orders[:1000])
        logged.commit()
        before = [(file.name, file.read_bytes()) for file in sorted(folder.glob("logged.db*")) if not file.name.endswith("-shm")]
        yield "orders in a log", run("orders", folder / "logged.db", "--table", "orders"), (0, spent_most(orders[:1000]), "")
        after = [(file.name, file.read_bytes()) for file in sorted(folder.glob("logged.db*")) if not file.name.endswith("-shm")]
        yield "a database and its log stay", after == before and len(before), 2
    yield "no file beside a database", [file.name for file in folder.glob("orders.db*")], ["orders.db"]
    yield "no orders", run("orders", stdin=subprocess.DEVNULL), (0, "[]\n", "")


def faults_of_orders(folder):
    """The same of what `orders` refuses: a status, nothing on standard output, and words of what is told."""
    (folder / "bytes.csv").write_bytes(b"customer,cents\nAnn,5000\nB\xffb,2000\n")
    (folder / "great.csv").write_text(f"customer,cents\nAnn,{2**62}\nBob,9\nAnn,{2**62}\n")
    (folder / "short.csv").write_text("customer,cents\nAnn,5000\nBob\n")
    (folder / "names.csv").write_text("name,cents\nAnn,5000\n")
    (folder / "cut.db").write_bytes((folder / "orders.db").read_bytes()[: 1 << 20])
    (folder / "open.db").write_bytes((folder / "orders.db").read_bytes()[:4096])
    (folder / "open.db-journal").write_bytes(b"\xd9\xd5\x05\xf9")
    rows = [
        ("a bad row in the middle", 1, ["bad.csv"], f"bad.csv: CSV deserialize error: record {ORDERS // 2 + 1} (line: {ORDERS // 2 + 2},"),
        ("bad UTF-8", 1, ["bytes.csv"], "(line: 3, byte: 24): field 1: invalid utf-8"),
        ("a sum that is too great", 1, ["great.csv"], 'the cents of "Ann" come to 2^63 or more'),
        ("a row that is too short", 1, ["short.csv"], "(line: 3,"),
        ("a column that is missing", 1, ["names.csv"], "(line: 2, byte: 11): field 2: missing field"),
        ("a bad row of a table", 1, ["orders.db", "--table", "bad"], "orders.db: row 2: cents is no whole number"),
        ("a table that is missing", 1, ["orders.db", "--table", "none"], "orders.db: table none: no such table"),
        ("a file that is no database", 1, ["orders.csv", "--table", "none"], "orders.csv: "),
        ("a database that is cut", 1, ["cut.db", "--table", TABLE], "cut.db: "),
        ("a database with a journal", 1, ["open.db", "--table", TABLE], "open it with sqlite3"),
        ("a missing file", 3, ["missing"], "orders: missing: "),
        ("a missing database", 3, ["missing", "--table", "none"], "orders: missing: "),
        ("a folder", 3, ["."], "orders: .: "),
        ("a folder as a database", 3, [".", "--table", "none"], "orders: .: "),
        ("no workers", 2, ["orders.csv", "--workers", "0"], "--workers"),
        ("an unknown option", 2, ["--tables", "none"], "--tables"),
    ]
    for name, status, words, told in rows:
        found = run("orders", *words, cwd=folder)
        yield f"orders: {name}", (*found[:2], told in found[2] or found[2]), (status, "", True)
    yield "a missing file stays missing", (folder / "missing").exists(), False


def of_numbers(folder, draw):
    """The same of `numbers`, and what it refuses."""
    few = [draw.randrange(-BOUND + 1, BOUND) for _ in range(20_000)]
    numbers = draw.choices(few, k=NUMBERS)
    text = "".join(f"{number:+016d}\n" for number in numbers)
    file = folder / "numbers"
    file.write_text(text)
    wanted = (0, answers(numbers), "")
    for workers in "14":
        yield f"numbers of a file, {workers} workers", run("numbers", file, "--workers", workers), wanted
    yield "numbers of fewer bytes than the file", (LIMIT < len(text), run("numbers", file, "--workers", "1", limit=LIMIT)), (True, wanted)
    with subprocess.Popen(["cat", file], stdout=subprocess.PIPE) as pipe:
        yield "numbers of a pipe", run("numbers", "/dev/stdin", stdin=pipe.stdout), wanted
    middle = text.index("\n", len(text) // 2) + 1
    (folder / "bad").write_text(text[:middle] + "12x\n" + text[middle:] + "13y\n")
    (folder / "bytes").write_bytes(text[:middle].encode() + b"1\xff\n")
    (folder / "great").write_text(f"1\n{BOUND}\n")
    (folder / "empty").write_text("")
    rows = [
        ("a line that is no number", 1, ["bad"], 'numbers: bad: "12x" is no whole number'),
        ("a number that is too great", 1, ["great"], f'numbers: great: "{BOUND}" is no whole number between -2^31 and 2^31'),
        ("bad UTF-8", 1, ["bytes"], f"numbers: bytes: not UTF-8 at byte {middle + 1}\n"),
        ("a missing file", 3, ["missing"], "numbers: missing: "),
        ("a folder", 3, ["."], "numbers: .: "),
        ("no workers", 2, ["numbers", "--workers", "0"], "--workers"),
        ("two files", 2, ["numbers", "numbers"], "numbers"),
    ]
    for name, status, words, told in rows:
        found = run("numbers", *words, cwd=folder)
        yield f"numbers: {name}", (*found[:2], told in found[2] or found[2]), (status, "", True)
    few = "greatest: []\nby last digit: {}\n"
    none = f"sum of the squares of even ones: 0\nabove 900000: 0\nfirst above 999990: none\nall below 1000003: true\nthat differ: 0\n{few}"
    yield "no numbers", run("numbers", folder / "empty"), (0, none, "")


def of_output(folder):
    """Standard outputs that take nothing."""
    for name, words in [("orders", ["orders.csv"]), ("numbers", ["empty"]), ("numbers", ["--help"])]:
        with open("/dev/full", "w") as full:
            found = run(name, *words, cwd=folder, stdout=full)
            yield f"{name} {words[0]}: a full device", (found[0], found[2].startswith(f"{name}: standard output: ")), (3, True)
        found = run(name, *words, cwd=folder, stdout=None, preexec_fn=lambda: os.close(1))
        yield f"{name} {words[0]}: no standard output", (found[0], found[2].startswith(f"{name}: standard output: ")), (3, True)
        shown = run(name, "--help")
        yield f"{name}: its help", (shown[0], "--workers" in shown[1], shown[2]), (0, True, "")


def findings():
    for name in ["orders", "numbers"]:
        if not (ROOT / "crates" / name / "out" / name).exists():
            sys.exit(f"crates/{name}/out/{name} is missing: `rt ci` leaves it, and `rt run` in crates/{name} builds it")
    draw = random.Random(26)
    orders = made_orders(draw)
    with tempfile.TemporaryDirectory() as name:
        folder = pathlib.Path(name)
        write_orders(folder, orders)
        yield from of_orders(folder, orders)
        yield from faults_of_orders(folder)
        yield from of_numbers(folder, draw)
        yield from of_output(folder)


if __name__ == "__main__":
    conclude(findings())
