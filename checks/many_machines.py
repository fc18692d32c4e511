#!/usr/bin/env python3
"""Runs what examples/many-machines shows, with parts that come in another order, twice or not at all, and compares each answer with that of the whole.

    checks/many_machines.py

The program `word_counts` counts the words of texts that are cut anywhere, under GNU parallel, under Dask (a scheduler and three workers on this machine, of
which one is killed in mid run), under Slurm (a controller and two nodes, of which one is killed with its tasks), and by the line protocols of Hadoop
Streaming and of Spark's `pipe`, which this script plays; a plain Python counts them too. Pipelines over a range run in parts by `range.sh`, and in one run of `pstream`. Each command that docs/many-machines.md shows with an answer is run as
well. Nothing is installed: without GNU parallel a loop over the parts takes its place, without Dask or Slurm each is left out; that is told. Both programs
have to be built before (`rt run` in their folders).
"""

import collections
import contextlib
import os
import pathlib
import random
import re
import shutil
import socket
import subprocess
import sys
import tempfile
import time

from built import EXAMPLES, PSTREAM, ROOT, conclude, need_program

SCRIPTS = EXAMPLES / "many-machines"
PAGE = ROOT / "docs" / "many-machines.md"
WORD_COUNTS = ROOT / "crates" / "word_counts" / "out" / "word_counts"
DASK_WORDS = SCRIPTS / "dask_words.py"
# the Python that Debian's packages are for
PYTHON = "/usr/bin/python3"
SHOWN = re.compile(r"^```sh\n(.*?)^```\n\n`([^`]+)`", re.MULTILINE | re.DOTALL)
# what stands in GNU parallel's place: it passes over the options, and runs one part after another
LOOP = """#!/bin/sh
while [ "$1" != pstream ] && [ "$1" != word_counts ]; do shift; done
while read -r first second; do
    case $1 in
    pstream) pstream "$first" || exit ;;
    *) word_counts part "$3" --from "$first" --to "$second" || exit ;;
    esac
done
"""
# the program, whose second part takes its time or is refused memory: the two leave the pipelines of the device file alone
PROGRAM = '#!/bin/sh\n[ "$1" = /dev/stdin ] || ! grep -q "^range 2 4$" "$1" || {{ {}; }}\nexec {} "$@"\n'
# a controller and two nodes of this machine
SLURM = """ClusterName=trial
SlurmctldHost={host}(127.0.0.1)
SlurmctldPort={ports[0]}
SlurmUser=root
AuthType=auth/none
AuthInfo=cred_expire=5
CredType=cred/none
ProctrackType=proctrack/pgid
TaskPlugin=task/none
MpiDefault=none
SchedulerType=sched/builtin
SlurmdTimeout=3
StateSaveLocation={folder}
SlurmdSpoolDir={folder}/%n
SlurmctldPidFile={folder}/controller.pid
SlurmdPidFile={folder}/%n.pid
NodeName=n1 NodeHostname={host} NodeAddr=127.0.0.1 Port={ports[1]} CPUs=2
NodeName=n2 NodeHostname={host} NodeAddr=127.0.0.1 Port={ports[2]} CPUs=2
PartitionName=all Nodes=n1,n2 Default=YES State=UP
"""
# the program, whose parts take their time, and are told of in a file
SLOW = '#!/bin/sh\n[ "$1" != part ] || {{ echo "$4" >>{}; sleep 0.2; }}\nexec {} "$@"\n'

# the second of these filters keeps nothing, and the first nothing of the first parts of `range 0 30`
FILTERS = ["filter greater 19\nfilter divisible 2\n", "filter greater 100\n"]
FOLDS = [
    "sum", "product", "max", "min", "count", "findfirst", "tolist", "allmatch greater 20", "anymatch divisible 7", "nonematch equals 25",
]
# lines that run in the second pipeline, and what stands behind them
GATHERED = [
    "groupby mod 3 count", "groupby mod 3 tolist", "partition less 25 sum", "teeing max first", "tomap mod 3 self last",
    "tomapstrict self negate", "limit 3\nsum", "skip 2\ncount", "takewhile divisible 4\ncount", "dropwhile divisible 4\ncount",
    "map mod 3\ndistinct\nmap add 1\nsum",
]
ENDS = ["-9223372036854775808 -9223372036854775801", "9223372036854775800 9223372036854775807", "3 5", "5 3"]

# texts of one line or more, of none, with lines and ends that are empty, and with words that JSON spells in another way
TEXTS = ["to be or not to be\n\nthat is\n", "", "\n", "one", "a  b \n\n\n a", "\u00e9 \\n \" \t\r\n\u2028 x\n\u00e9", "\n\nend\n"]

# files that have no answer, and what the scripts don't take
FAULTS = [
    "range 0 10\nmap mull 2\nsum", "range 0 1x\nsum", "range 0 4611686018427387905\nsum", "range 0 9\nsum\nsum", "range 0 9",
    "range 0 9\ntomapstrict mod 5 self",
]


def parallel_is_there():
    """Whether GNU parallel is installed; there is another program of that name."""
    with contextlib.suppress(FileNotFoundError):
        return subprocess.run(["parallel", "--version"], capture_output=True).stdout.startswith(b"GNU parallel")
    return False


class Trial:
    """A folder with a pipeline file, a text, and programs that stand before those of the path."""

    def __init__(self, folder):
        self.folder, self.file, self.text, self.programs = folder, folder / "file", folder / "text", folder / "programs"
        self.programs.mkdir()
        self.second_part("true")
        self.has_program("word_counts", f'#!/bin/sh\nexec {WORD_COUNTS} "$@"\n')

    def has_program(self, name, text):
        (self.programs / name).write_text(text)
        (self.programs / name).chmod(0o755)

    def second_part(self, command):
        """Has a command run before the program's second part of `range 0 10`."""
        self.has_program("pstream", PROGRAM.format(command, PSTREAM))

    def environment(self):
        return os.environ | {"PATH": f"{self.programs}:{os.environ['PATH']}"}

    def run(self, *words, lines=""):
        """Status, standard output and standard error of a command in the repository."""
        done = subprocess.run(words, input=lines.encode(), capture_output=True, cwd=ROOT, env=self.environment(), timeout=60)
        return done.returncode, done.stdout.decode(), done.stderr.decode()

    def whole(self, file):
        self.file.write_text(file)
        return self.run("pstream", self.file)

    def range_in_parts(self, file, *options):
        self.file.write_text(file)
        return self.run(SCRIPTS / "range.sh", "5", self.file, *options)

    def word_counts(self, *words, lines=""):
        """The lines that the program writes, which has to have an answer."""
        status, out, error = self.run(WORD_COUNTS, *words, lines=lines)
        return out.splitlines(keepends=True) if status == 0 else [f"status {status}: {error}"]

    def part(self, start, end):
        return "".join(self.word_counts("part", self.text, "--from", str(start), "--to", str(end)))

    def finish(self, lines):
        return self.run(WORD_COUNTS, "finish", lines="".join(lines))


def counted(text):
    """What has to be written of a text."""
    counts = collections.Counter(word for line in text.split("\n") for word in line.split(" ") if word)
    return 0, "".join(f"{word} {count}\n" for word, count in counts.items()), ""


def long_text(chance, lines):
    """Lines of words, some of them frequent."""
    words = ["".join(chance.choices("abcdefghij\u00e9\"\\", k=chance.randint(1, 8))) for _ in range(3000)]
    return "\n".join(" ".join(chance.choices(words[: chance.choice((20, 3000))], k=chance.randint(0, 12))) for _ in range(lines))


# Each gives a name, what was found and what was wanted.

def short_texts(trial):
    """Every cut of short texts in two, and three, and the whole in one."""
    for text in TEXTS:
        trial.text.write_bytes(text.encode())
        size, wanted = len(text.encode()), counted(text)
        yield f"in one part: {text!r}", trial.finish([trial.part(0, size)]), wanted
        cuts = [(cut, size) for cut in range(size + 1)] + [(cut, min(cut + 1, size)) for cut in range(size + 1)]
        answers = [trial.finish([trial.part(second, size), trial.part(0, first), trial.part(first, second)]) for first, second in cuts]
        yield f"cut anywhere: {text!r}", [cut for cut, answer in zip(cuts, answers) if answer != wanted], []


def engines_at_will(trial):
    """Parts in another order, twice, and combined never, once and often."""
    chance = random.Random(29)
    text = long_text(chance, 2000)
    trial.text.write_bytes(text.encode())
    size, wanted = len(text.encode()), counted(text)
    for number in range(12):
        places = sorted({0, size, *(chance.randrange(size) for _ in range(chance.randrange(12)))})
        lines = [trial.part(*both) for both in zip(places, places[1:])]
        name = f"{len(lines)} parts, combined {number % 4} times"
        for _ in range(number % 4):
            chance.shuffle(lines)
            middle = chance.randrange(len(lines) + 1)
            groups = [group + chance.sample(group, len(group) // 2) for group in (lines[:middle], lines[middle:]) if group]
            lines = [line for group in groups for line in trial.word_counts("combine", lines="".join(group))]
        lines += chance.sample(lines, len(lines) // 2)
        chance.shuffle(lines)
        yield name, trial.finish(lines), wanted
    missing = trial.finish([trial.part(9, 300), trial.part(600, size)])
    yield "parts that are missing", missing, (
        4, "", f"word_counts: parts are missing, 0 to 9 of {size}, 300 to 600 of {size}: run them, and hand in their lines with these\n",
    )
    yield "no part", trial.finish([]), (4, "", "word_counts: no part came: hand in at least one line\n")
    part = trial.part(0, size)
    for name, line, told in [
        ("of another job", part.replace('"word_counts"', '"words"'), 'is of the job "words": leave out what other jobs wrote'),
        ("that is cut off", part[:-9], "is no JSON: hand in each line as it was written"),
    ]:
        yield f"a line {name}", trial.finish([part, line]), (1, "", f"word_counts: standard input: line 2 {told}\n")
    beyond = trial.run(WORD_COUNTS, "part", trial.text, "--from", "9", "--to", str(size + 1))
    yield "places beyond the end", beyond[:2], (1, "")
    yield "no such file", trial.run(WORD_COUNTS, "part", "/none"), (3, "", "word_counts: /none: No such file or directory (os error 2)\n")
    yield "no command", trial.run(WORD_COUNTS)[:2], (2, "")


def line_protocols(trial):
    """Hadoop Streaming, which sorts what the mappers write, with a tab behind each line, and Spark's `pipe`, of a list of places and of lines."""
    chance = random.Random(31)
    text = long_text(chance, 2000)
    trial.text.write_bytes(text.encode())
    wanted = counted(text)
    places = trial.word_counts("plan", trial.text, "--parts", "13")
    splits = [places[at::3] for at in range(3)]
    mapped = [trial.run(SCRIPTS / "mapper.sh", trial.text, lines="".join(split))[1].splitlines() for split in splits]
    tabbed = [sorted(f"{line}\t\n" for line in lines) for lines in mapped]
    for times in range(3):
        yield f"Hadoop Streaming, with {times} combiners", trial.finish(sorted(line for lines in tabbed for line in lines)), wanted
        tabbed = [[line.replace("\n", "\t\n") for line in trial.word_counts("combine", lines="".join(lines))] for lines in tabbed]
    again = trial.run(SCRIPTS / "mapper.sh", trial.text, lines="".join(splits[1]))[1].splitlines()
    lines = [f"{line}\n" for lines in [*mapped, again] for line in lines]
    chance.shuffle(lines)
    yield "Spark's pipe, with a partition that ran twice", trial.finish(lines), wanted


def gnu_parallel(trial):
    text = long_text(random.Random(37), 20_000)
    trial.text.write_bytes(text.encode())
    for options in [(), ("-j", "4"), ("--shuf", "-j", "3")]:
        yield f"GNU parallel {' '.join(options)}", trial.run(SCRIPTS / "parallel.sh", trial.text, "16", *options), counted(text)


def free_port():
    with socket.socket() as one:
        one.bind(("127.0.0.1", 0))
        return one.getsockname()[1]


class Engine:
    """An engine that runs parts, each of which takes its time, and is told of."""

    def __init__(self, trial, running):
        self.trial, self.running, self.told = trial, running, trial.folder / "told"
        trial.text.write_bytes(long_text(random.Random(41), 20_000).encode())
        trial.has_program("word_counts", SLOW.format(self.told, WORD_COUNTS))
        running.callback(trial.has_program, "word_counts", f'#!/bin/sh\nexec {WORD_COUNTS} "$@"\n')

    def start(self, *words, **how):
        """Starts a program, which is killed at the end."""
        process = subprocess.Popen(words, cwd=self.trial.folder, env=self.trial.environment(), **how)
        self.running.callback(process.wait)
        self.running.callback(process.kill)
        return process

    def begun(self):
        return len(self.told.read_text().split())

    def until(self, is_so):
        """Waits until something is so, two minutes at most."""
        end = time.monotonic() + 120
        while not is_so() and time.monotonic() < end:
            time.sleep(0.02)

    def answers(self, name, run, workers):
        """What a run answers that nothing disturbs, and one in whose middle a worker is killed. `run` starts one, and gives what waits for its answer."""
        for killed in (None, workers[0]):
            self.told.write_text("")
            answer = run()
            if killed:
                self.until(lambda: self.begun() >= 8)
                killed.kill()
            yield f"{name}, {'a worker killed' if killed else 'no worker killed'}", answer(), counted(self.trial.text.read_text())[1]
            print(f"    {name} began {self.begun()} parts of 24", flush=True)


def dask(trial):
    """A scheduler and three workers."""
    if subprocess.run([PYTHON, "-c", "import distributed"], capture_output=True).returncode:
        print("not tried: Dask isn't installed (Debian's package `python3-distributed`)", flush=True)
        return
    address = f"tcp://127.0.0.1:{free_port()}"
    with contextlib.ExitStack() as running:
        engine = Engine(trial, running)

        def start(module, *words):
            return engine.start(PYTHON, "-m", module, *words, "--no-dashboard", stdout=subprocess.DEVNULL, stderr=subprocess.DEVNULL)

        def run():
            counting = engine.start(PYTHON, DASK_WORDS, address, trial.text, "24", stdout=subprocess.PIPE)
            return lambda: counting.communicate(timeout=100)[0].decode()

        start("distributed.cli.dask_scheduler", "--host", "127.0.0.1", "--port", address.rpartition(":")[2])
        workers = [start("distributed.cli.dask_worker", address, "--nthreads", "1", "--no-nanny") for _ in range(3)]
        yield from engine.answers("Dask", run, workers)


def slurm(trial):
    """A controller and two nodes."""
    if not all(map(shutil.which, ("slurmctld", "slurmd", "sbatch"))):
        print("not tried: Slurm isn't installed (Debian's packages `slurmctld`, `slurmd` and `slurm-client`)", flush=True)
        return
    ports, file = [free_port() for _ in range(3)], trial.folder / "slurm.conf"
    file.write_text(SLURM.format(host=socket.gethostname(), folder=trial.folder, ports=ports))
    with contextlib.ExitStack() as running:
        engine = Engine(trial, running)

        def start(*words):
            return engine.start("env", f"SLURM_CONF={file}", *words, stdout=subprocess.DEVNULL, stderr=subprocess.DEVNULL)

        def asked(*words):
            return trial.run("env", f"SLURM_CONF={file}", *words)[1]

        def run():
            folder = pathlib.Path(tempfile.mkdtemp(dir=trial.folder))
            asked(SCRIPTS / "slurm.sh", trial.text, "24", folder)

            def answer():
                engine.until(lambda: not asked("squeue", "-h"))
                return (folder / "answer").read_text() if (folder / "answer").exists() else asked("squeue")

            return answer

        for name in ("n1", "n2"):
            (trial.folder / name).mkdir()
        start("slurmctld", "-D", "-c")
        # (each in a space of processes of its own: what a node started dies with it)
        nodes = [start("unshare", "--pid", "--fork", "--mount-proc", "--kill-child", "slurmd", "-D", "-N", name) for name in ("n1", "n2")]
        engine.until(lambda: asked("sinfo", "-h", "-o", "%T %D") == "idle 2\n")
        yield from engine.answers("Slurm", run, nodes)


def ranges(trial):
    files = [f"pipeline 1\nrange 0 30\n{filters}{end}\n" for filters in FILTERS for end in FOLDS]
    files += [f"pipeline 2\nrange 0 30\n{FILTERS[0]}{end}\n" for end in GATHERED]
    files += [f"pipeline 1\nrange {ends}\n{end}\n" for ends in ENDS for end in ("sum", "tolist")]
    for file in files:
        yield " / ".join(file.splitlines()[1:]), trial.range_in_parts(file), trial.whole(file)


def order(trial):
    """Parts that end in another order than they stand in."""
    trial.second_part("sleep 1")
    for end in ("tolist", "filter greater 2\nfindfirst"):
        file = f"pipeline 1\nrange 0 10\n{end}\n"
        yield "a late part: " + end.replace("\n", " / "), trial.range_in_parts(file, "-j", "5"), trial.whole(file)
    trial.second_part("true")


def failures(trial):
    """The ends of runs without an answer: a status, nothing on standard output, and the first line on standard error."""
    def told(end):
        status, out, err = end
        return status, out, err.splitlines()[0]

    for lines in FAULTS:
        file = f"pipeline 2\n{lines}\n"
        yield "no answer: " + lines.replace("\n", " / "), trial.range_in_parts(file), trial.whole(file)
    too_large = "pipeline 1\nrange 0 300000\ntolist\n"
    yield "a second pipeline that is too large", told(trial.range_in_parts(too_large)), (2, "", "line 0: TOO_LARGE")
    no_range = "pipeline 1\nclosed 0 9\nsum\n"
    yield "no range", told(trial.range_in_parts(no_range)), (2, "", f"range.sh: line 2 of {trial.file} has to be a range")
    yield "no parts", told(trial.run(SCRIPTS / "range.sh", "0", trial.file)), (2, "", "range.sh: PARTS has to be a number from 1 to 99999")
    trial.second_part("echo out of memory >&2; exit 3")
    yield "a part that is refused memory", told(trial.range_in_parts("pipeline 1\nrange 0 10\nsum\n")), (3, "", "out of memory")


def shown(trial):
    """The commands of the page with their answers."""
    found = SHOWN.findall(PAGE.read_text())
    yield "the page shows commands", bool(found), True
    for command, answer in found:
        yield f"shown: {command.rstrip()}", trial.run("sh", "-c", command), (0, f"{answer}\n", "")


def main():
    need_program()
    if not WORD_COUNTS.exists():
        sys.exit(f"{WORD_COUNTS} is missing: `rt ci` leaves it, and `rt run` in crates/word_counts builds it")
    with tempfile.TemporaryDirectory() as folder:
        trial = Trial(pathlib.Path(folder))
        if not parallel_is_there():
            print("not tried: GNU parallel isn't installed (Debian's package `parallel`); a loop stands in its place", flush=True)
            trial.has_program("parallel", LOOP)
        parts = (shown, short_texts, engines_at_will, line_protocols, gnu_parallel, dask, slurm, ranges, order, failures)
        conclude(finding for part in parts for finding in part(trial))


if __name__ == "__main__":
    main()
