#!/usr/bin/env python3
"""Tries the wrong bodies crates/NAME/wrong-bodies/*.edit: the check has to refuse each edited function by a goal of its own.

    checks/wrong_bodies.py [--anew] [CRATE..]

Run it at the top of the repository, once the libraries are built (`rt ci`, or `rt all check`). An edit has the form of a must-fail edit:
a line `file: src/..`, then pairs of lines `old: TEXT` and `new: TEXT`. One check tries as many edits of a crate as it can, at most one a function: where
several touch one function, it stands there once more for each, under a name of its own, unless it is a method that an impl gives a trait, or calls itself.
The check proves no others than these: the proof of each other function is a hole, which stands for what its contract says, and its body is empty. An edit
passes where the check says of the edited function itself that a goal isn't proved. That the function calls one that was refused, that a proof file names what
the edit took away, or that the text can't be read is no refusal. What a pack doesn't show so is tried alone. A line `function: NAME` has the check's name of
the function that has to be refused. What stands in that function is meant there, also where the file has the same text elsewhere; any other text has to stand
once in its file. An edit outside functions, of a constant say, needs that line; without one it is tried alone, on the whole crate, and passes where any
function is refused so.

Where `rt ci` keeps on this machine what passed, so does this: by the checksums of all that it rests on, which are the edit, the crate, the crates below
it, the toolchain, and this script. A later run tries what changed; --anew tries all.

Prints a line an edit, and last `N passed, M failed`.
"""

import collections
import concurrent.futures
import contextlib
import copy
import difflib
import functools
import hashlib
import importlib.machinery
import importlib.util
import os
import pathlib
import re
import shutil
import subprocess
import sys
import tempfile

FOLDER = "wrong-bodies"
FUNCTION = re.compile(r"^( *)(?:pub(?:\([a-z]+\))? )?(?:(?:final|const|unsafe) )*fn (\w+)")
OWNER = re.compile(r"^(?:pub )?(?:unsafe )?(impl\b.*|trait \w+)")
DEFAULTED = re.compile(r"^(?:pub )?(?:struct|enum) (\w+)<[^{;(]* = ", re.M)
CYCLE = re.compile(r"#\[cycle\((\w+)\)\]")
TOLD = re.compile(r"fn (\S+?): (.*)")
UNPROVED_NOTE = re.compile(r"note: (src/\S+?):(\d+):\d+: it is not proved that ")
PROOF_ERROR = re.compile(r"(?:\./)?proofs/(\S+?)/\w+\.antt:\d+:\d+: error: (.*)")
GONE = re.compile(r"has no field|\(nearest: |is not in scope|has no `|was not admitted")
UNKNOWN = re.compile(r"rattle: error: `\w+` has ")
REFUSED_HOLE = re.compile(r"\./proofs/(\S+)/Proof\.antt: error")
SOUND = re.compile(r"proved|no holes|depends on a hole in .*")
HOLE = """use Rattle.{module}.Statement.{{statement}}

pub {name}_spec : {{M : Type 1}} → statement M
{name}_spec = ?
"""

Function = collections.namedtuple("Function", "file module owner name folders first last")
Told = collections.namedtuple("Told", "reasons notes errors")


def load_rt():
    """The toolchain's command as a module: it knows the form of an edit, the crates, and the words of a check."""
    sys.dont_write_bytecode = True
    found = os.path.realpath(shutil.which("rt") or sys.exit("rt is not on the path"))
    loader = importlib.machinery.SourceFileLoader("rt_command", found)
    made = importlib.util.module_from_spec(importlib.util.spec_from_loader("rt_command", loader))
    sys.modules["rt_command"] = made
    loader.exec_module(made)
    return made


RT = load_rt()
KEEPS = hasattr(RT, "Kept")


@functools.cache
def functions_of(file, text):
    """The functions of a laid-out source file, by the numbers of their lines."""
    lines, found, owner = text.split("\n"), [], ""
    module = re.sub(r"^src/|/mod\.rt$|\.rt$", "", file).replace("/", "::")
    module = "" if module in ("lib", "main") else module
    for number, line in enumerate(lines):
        if line.startswith("}"):
            owner = ""
        owner = head_at(lines, number) if OWNER.match(line) else owner
        head = FUNCTION.match(line)
        if not head:
            continue
        cycles = [it[1] for it in map(CYCLE.search, lines[max(0, number - 6) : number]) if it]
        folders = (head[2], *(f"+{it}" for it in [head[2], *cycles]))
        found.append(Function(file, module, owner if head[1] else "", head[2], folders, number, last_line(lines, number, head[1])))
    return found


def functions_in(crate):
    """All functions of a crate."""
    files = sorted(pathlib.Path(crate.folder, "src").rglob("*.rt"))
    return [it for file in files for it in functions_of(str(file.relative_to(crate.folder)), file.read_text(encoding="utf-8"))]


def head_at(lines, first):
    """The head of an impl or a trait, which may take several lines."""
    last = next((at for at in range(first, len(lines)) if lines[at].endswith(("{", "{}"))), first)
    return " ".join(line.strip() for line in lines[first : last + 1]).replace("< ", "<").replace(", >", ">")


def last_line(lines, first, indent):
    """The last line of the function that begins at this one: its closing brace, or the end of its declaration."""
    is_open = False
    for at in range(first, len(lines)):
        is_open = is_open or lines[at] == indent + "{" or lines[at].endswith(" {")
        if lines[at] == indent + "}" or lines[at].endswith(("{}", ";")) and not is_open:
            return at
    return first


def camel(type_text, parameters=()):
    """A type as the names of its impls spell it: `&str` is RefStr, `Vec<T>` is Vec, and of a parameter T `&T` is Ref and `&[T]` RefSlice."""
    if type_text.strip().startswith("("):
        return f"Tuple{type_text.count(',') + 1}"
    plain = re.sub(r"'\w+ |\bmut |<.*", "", type_text.strip())
    words = re.findall(r"&|\[|\w+", plain.rpartition("::")[2] if "&" not in plain else plain)
    spelled = {"&": "Ref", "[": "Slice"}
    return "".join(spelled.get(word) or word[0].upper() + word[1:] for word in words if word not in parameters or len(words) == 1)


def split_impl(owner):
    """The parameters of an impl, its trait with that one's arguments (neither, where there is none), and its type."""
    head, parameters, depth = owner.partition("impl")[2], "", 0
    if head.startswith("<"):
        for at, sign in enumerate(head):
            depth += (sign == "<") - (sign == ">" and head[at - 1] != "-")
            if depth == 0:
                parameters, head = head[1:at], head[at + 1 :]
                break
    trait, _, of = re.split(r"\bwhere\b|\{", head)[0].strip().rpartition(" for ")
    name, _, arguments = trait.partition("<")
    names = re.findall(r"(?:^|[<,] ?)([\w']+)(?=:|,|$)", parameters.strip().rstrip(","))
    return names, name, re.split(r", (?![^<(]*[>)])", arguments.rpartition(">")[0]), of


def owner_name(owner, with_arguments=False):
    """How the check's names of a method's function begin behind its module: the type, and the trait where there is one. They go on with those arguments
    of the trait that are no parameters of the impl."""
    if owner.startswith(("trait", "pub trait")):
        return owner.partition("trait ")[2].split("<")[0].split(":")[0].split(" ")[0]
    parameters, trait, arguments, of = split_impl(owner)
    of = re.sub(r"^&'\w+ ", "&", of)
    begins = camel(of, parameters)
    # (an impl of `Until<'static, E, NoGate>` by itself is Until+E+NoGate, one that gives `Keeper<C, C::Acc>` a trait KeeperAcc and the trait)
    if trait:
        at = [it for base, it in re.findall(r"(\w+)::(\w+)(?=[,>])", of) if base in parameters]
    else:
        types = re.findall(r"[<,] ?(\w+)(?=[,>])", of)
        at = [f"+{it}" for it in types] if set(types) - set(parameters) else []
    own = [camel(it, parameters) for it in arguments if with_arguments and it and it not in parameters]
    return "".join([begins, *at, camel(trait) if trait and trait != "Drop" else "", *own])


def has_another_name(function, text):
    """Whether the check may know a function by another name than ours: that of an impl of all types, or of one that leaves out a parameter with a default."""
    if not function.owner.startswith("impl"):
        return False
    parameters, _, _, of = split_impl(function.owner)
    return of in parameters or camel(of) in DEFAULTED.findall(text)


@functools.cache
def path_of(function):
    """The name that a check has for a function, without the crate's."""
    return "::".join(it for it in (function.module, owner_name(function.owner, True) if function.owner else "", function.name) if it)


def names_of(crate, function, told):
    """The names among those that the check told that can be this function's: one, where its impl tells it from others of its file."""
    path = "::".join(it for it in (crate, function.module) if it) + "::"
    if not function.owner:
        return [name for name in told if name == path + function.name]
    wanted = owner_name(function.owner)
    named = [name for name in told if name.startswith(path) and name.endswith("::" + function.name)]
    owners = {name: name[len(path) : -len(function.name) - 2] for name in named}
    return [it for it in named if owners[it] == wanted] or [it for it in named if owners[it].startswith(wanted)] or named


def without_body(lines, function):
    """The lines with the function's body emptied, and none moved. A body of one line stays."""
    first = next((at + 1 for at in range(function.first, function.last) if lines[at].endswith(" {") or lines[at].strip() == "{"), function.last)
    left = function.last - first
    return [*lines[:first], *["unreachable!()", *[""] * left][:left], *lines[function.last :]]


@contextlib.contextmanager
def with_holes(crate, proved, pack):
    """A copy of a crate with a pack's texts, in which a function's proof is a hole and its body empty, unless it is one of these, or in a cycle of calls
    with a proof of its own."""
    with tempfile.TemporaryDirectory(prefix="wrong-bodies-crate-") as room:
        for part in RT.rtlib.PARTS:
            if os.path.isdir(f"{crate.folder}/{part}"):
                shutil.copytree(f"{crate.folder}/{part}", f"{room}/{part}")
        for file, text in pack.texts().items():
            pathlib.Path(room, file).write_text(text, encoding="utf-8")
        for made in pack.copies:
            made.put_proof(crate.name, room)
        holed = copy.copy(crate)
        holed.folder = room
        for function in functions_in(holed):
            source = pathlib.Path(room, function.file)
            lines = source.read_text(encoding="utf-8").split("\n")
            path = path_of(function)
            folder = pathlib.Path(room, "proofs", *path.split("::"))
            is_in_a_cycle = len(function.folders) > 2 or folder.with_name(f"+{function.name}").is_dir()
            if path in proved or lines[function.last].endswith(";") or is_in_a_cycle or has_another_name(function, "\n".join(lines)):
                continue
            source.write_text("\n".join(without_body(lines, function)), encoding="utf-8")
            shutil.rmtree(folder, ignore_errors=True)
            folder.mkdir(parents=True)
            module = ".".join([crate.name, "proofs", *path.split("::")])
            (folder / "Proof.antt").write_text(HOLE.format(module=module, name=function.name), encoding="utf-8")
        yield holed


def names_in_proofs(path, crate):
    """How the crate's proof files name what stands in the folder of a function's proof."""
    return ".".join([f"Rattle.{crate}.proofs", *path.split("::"), ""])


class Change(collections.namedtuple("Change", "first last lines")):
    """Lines of a file, by their numbers, and what stands in their place."""

    def meets(self, other):
        """Whether both change a line."""
        return self.first < other.last and other.first < self.last


def lines_of(crate, file):
    return pathlib.Path(crate.folder, file).read_text(encoding="utf-8").split("\n")


def changes_of(old, new):
    """The changes that make these lines of those."""
    same = len(os.path.commonprefix([old, new]))
    end = len(os.path.commonprefix([old[same:][::-1], new[same:][::-1]]))
    matched = difflib.SequenceMatcher(None, old[same : len(old) - end], new[same : len(new) - end], autojunk=False)
    return [Change(same + first, same + last, new[same + at : same + to]) for tag, first, last, at, to in matched.get_opcodes() if tag != "equal"]


def with_changes(lines, changes):
    """The lines with these changes made, of which no two meet."""
    for change in sorted(changes, reverse=True):
        lines = [*lines[: change.first], *change.lines, *lines[change.last :]]
    return lines


class Copy:
    """A function that stands in a crate once more, under another name."""

    def __init__(self, of, number):
        self.of, self.name = of, f"{of.name}_{number}"
        self.function = of._replace(name=self.name, folders=(self.name, f"+{self.name}"))

    @staticmethod
    def can_be_of(function):
        """Whether the function is the same under another name: no method that an impl gives a trait, and in no cycle of calls."""
        is_given = function.owner.startswith("impl") and bool(split_impl(function.owner)[1])
        return not is_given and len(function.folders) == 2

    def change(self, lines):
        """The change of a file that puts these lines of the function behind it, under the other name."""
        renamed = [re.sub(rf"\bfn {self.of.name}\b", f"fn {self.name}", it) if FUNCTION.match(it) else it for it in lines]
        return Change(self.of.last + 1, self.of.last + 1, ["", *renamed])

    def put_proof(self, crate, room):
        """Puts what stands in the folder of the function's proof into one of the copy."""
        old, new = path_of(self.of), path_of(self.function)
        folder = pathlib.Path(room, "proofs", *old.split("::"))
        if folder.is_dir():
            for file in shutil.copytree(folder, folder.with_name(self.name)).rglob("*.antt"):
                file.write_text(file.read_text(encoding="utf-8").replace(names_in_proofs(old, crate), names_in_proofs(new, crate)), encoding="utf-8")


class Edit:
    """A wrong body: what it changes, and the functions that it changes."""

    def __init__(self, path, crate):
        self.path, self.name, self.pairs, self.functions = path, path.stem, [], []
        text = path.read_text(encoding="utf-8")
        file = old = named = None
        for line in text.split("\n"):
            if line.startswith("file: "):
                file = line[len("file: ") :].strip()
            elif line.startswith("function: "):
                named = line[len("function: ") :].strip()
            elif line.startswith("old: "):
                old = line[len("old: ") :]
            elif line.startswith("new:"):
                self.pairs.append((file, old, line[len("new:") :].removeprefix(" ")))
        found = [it for it in functions_in(crate) if path_of(it) == named]
        texts = self.texts_within(crate, found[0]) if len(found) == 1 else None
        self.texts, self.fault = (texts, None) if texts else RT.edited(text, crate.folder)
        if named and len(found) != 1:
            self.fault = self.fault or f"it names a function that isn't one of the crate: {named}"
        self.is_within = bool(texts) or not self.fault and all([self.find(crate, file, old) for file, old, _ in self.pairs])
        self.is_inside = self.is_within or bool(named)
        self.functions = found or self.functions

    def made_in(self, lines):
        """Lines with the edit made, or None where not each text that it changes stands in them once."""
        text = "\n".join(lines)
        for _, old, new in self.pairs:
            if text.count(old) != 1:
                return None
            text = text.replace(old, new)
        return text.split("\n")

    def texts_within(self, crate, function):
        """The file with the edit made in the function, or None where what it changes doesn't all stand there."""
        lines = lines_of(crate, function.file)
        made = self.made_in(lines[function.first : function.last + 1])
        if not made or any(file != function.file for file, _, _ in self.pairs):
            return None
        return {function.file: "\n".join([*lines[: function.first], *made, *lines[function.last + 1 :]])}

    def find(self, crate, file, old):
        """Notes the function that a pair changes, and answers whether there is one."""
        text = pathlib.Path(crate.folder, file).read_text(encoding="utf-8")
        at = text.find(old)
        if at < 0:
            # (a later pair may change what an earlier one wrote)
            return bool(self.functions)
        line = text[: at + len(old) - len(old.lstrip())].count("\n")
        inside = [it for it in functions_of(file, text) if it.first <= line <= it.last]
        self.functions += [it for it in inside if it not in self.functions]
        return bool(inside)

    def changes(self, crate):
        """What the edit changes in each file of the crate."""
        return {file: changes_of(lines_of(crate, file), text.split("\n")) for file, text in self.texts.items()}

    def changes_in(self, made, crate):
        """The change that puts a copy of a function, in which the edit is made, behind it, or None where the edit isn't within the function."""
        text = lines_of(crate, made.of.file)
        first = made.of.first
        while text[first - 1].strip().startswith("#["):
            first -= 1
        lines = self.made_in(text[first : made.of.last + 1])
        return lines and {made.of.file: [made.change(lines)]}


class Pack:
    """Edits that one check tries: what all of them change in each file, the functions of each as they are named there, and which of these are copies."""

    def __init__(self, crate, edits=()):
        self.crate, self.changes, self.functions, self.copies = crate, {}, {}, []
        for edit in edits:
            self.add(edit)

    def add(self, edit):
        """Takes an edit too, and says whether it did."""
        # (an edit of a constant says something of each function that names it)
        if self.functions and not all(it.is_within for it in [edit, *self.functions]):
            return False
        touched = [it for it in edit.functions if any(it in other.functions for other in self.functions)]
        copies = []
        if not touched:
            changes = edit.changes(self.crate)
        elif len(edit.functions) == 1 and Copy.can_be_of(touched[0]):
            copies = [Copy(touched[0], 2 + sum(it.of == touched[0] for it in self.copies))]
            changes = edit.changes_in(copies[0], self.crate)
        else:
            return False
        if changes is None or any(one.meets(other) for file in changes for one in changes[file] for other in self.changes.get(file, [])):
            return False
        for file in changes:
            self.changes[file] = [*self.changes.get(file, []), *changes[file]]
        self.functions[edit] = [it.function for it in copies] or edit.functions
        self.copies += copies
        return True

    def texts(self):
        """The files' texts with all edits made."""
        return {file: "\n".join(with_changes(lines_of(self.crate, file), changes)) for file, changes in self.changes.items()}

    def paths(self):
        """The check's names of the functions to prove, or none where the whole crate is to be."""
        return [path_of(it) for edit in self.functions for it in self.functions[edit]] if all(it.is_inside for it in self.functions) else []


def packs_of(edits, crate):
    """The edits in packs, as few as that allows."""
    packs = []
    for edit in edits:
        if not any(pack.add(edit) for pack in packs):
            packs.append(Pack(crate, [edit]))
    return packs


def read_check(said):
    """What a check told: of each function that isn't proved why, the notes on its own goals by their places, and the errors of its proof files."""
    reasons, notes, errors = {}, [], collections.defaultdict(list)
    for line in said:
        if found := TOLD.fullmatch(line):
            reasons[found[1]] = found[2]
        elif found := UNPROVED_NOTE.match(line):
            notes.append((found[1], int(found[2]) - 1))
        elif found := PROOF_ERROR.match(line):
            errors[found[1]].append(found[2])
    return Told(reasons, notes, errors)


def own_goal(function, crate, told, texts):
    """Says which goal of its own the function is refused by, or answers None."""
    for name in names_of(crate, function, told.reasons):
        reason = told.reasons[name]
        if found := re.search(r"`search` did not prove (`[^;]*)", reason):
            return found[1]
        if reason.startswith(("not proved", "no proof")):
            above = name.split("::")[1:-1]
            places = {"/".join([*above, folder]) for folder in function.folders} | {"/".join([function.module.replace("::", "/"), folder]) for folder in function.folders}
            shown = [error for place in places for error in told.errors.get(place, []) if not GONE.search(error)]
            if shown:
                return shown[0][:120]
            now = next((it for it in functions_of(function.file, texts[function.file]) if (it.owner, it.name) == (function.owner, function.name)), None)
            if now and any(file == now.file and now.first <= line <= now.last for file, line in told.notes):
                return "a goal that has no answer"
    return None


def own_goal_of_any(crate, told):
    """Says of a check by which goal of its own some function is refused, or answers None."""
    for name, reason in told.reasons.items():
        if found := re.search(r"`search` did not prove (`[^;]*)", reason):
            return f"{name}: {found[1]}"
    return next((shown[:120] for errors in told.errors.values() for shown in errors if not GONE.search(shown)), None)


def why_not(edit, crate, told):
    """Says why an edit that was tried alone is no refused wrong body."""
    reasons = [told.reasons[name] for function in edit.functions for name in names_of(crate, function, told.reasons)]
    shown = next((it for it in reasons if not SOUND.fullmatch(it)), None)
    if not shown and not (edit.is_inside or told.errors):
        shown = next((it for it in told.reasons.values() if not SOUND.fullmatch(it)), None)
    if not shown:
        return "NOT REFUSED: the function is proved with this edit"
    if told.errors:
        return "refused only since a proof file names what the edit took away: change a value and keep the names"
    return f"refused by no goal of its own: {shown[:200]}"


class Passed:
    """What earlier runs on this machine saw refused, where `rt` keeps what it passed. A kit that keeps nothing (one before 13f) has all tried anew."""

    def __init__(self, crates, anew):
        self.store = RT.Kept(crates, anew) if KEEPS else None
        self.script = pathlib.Path(__file__).read_bytes()

    def name(self, crate, edit, seen):
        """The sum of all that an edit's result rests on; the crates' own sums are those of `seen`, and what it lacks is added."""
        text = repr((RT.stamp_of(crate, seen), hashlib.sha256(self.script).hexdigest()))
        return self.store.of_edit(edit.path, hashlib.sha256(text.encode()).hexdigest())

    def find(self, crate, edits):
        """What an earlier run told of each of these edits that it refused."""
        if not self.store:
            return {}
        seen = {}
        found = {it: self.store.tried(self.name(crate, it, seen)) for it in edits if not it.fault}
        return {it: said[1] for it, said in found.items() if said}

    def keep(self, crate, edits):
        """Keeps what was told of refused edits, unless a file that the result rests on was touched since the run began."""
        if self.store and all(map(self.store.is_untouched, [crate, *crate.below()])):
            seen = {}
            for edit, text in edits.items():
                self.store.keep_tried(self.name(crate, edit, seen), RT.REFUSED, text)


class Trial:
    """The edits of one crate, each tried until it is shown as refused or has failed."""

    def __init__(self, crate, edits):
        self.crate, self.edits, self.told, self.no_holes = crate, edits, {}, set()

    def run(self):
        """What came of each edit: whether it passed, and what is told of it."""
        sound = [it for it in self.edits if not it.fault]
        self.told = {it: (False, f"it can't be applied: {it.fault}") for it in self.edits if it.fault}
        for pack in packs_of(sound, self.crate):
            self.try_pack(pack)
        for edit in sound:
            if edit not in self.told:
                self.try_pack(Pack(self.crate, [edit]))
        return self.told

    def try_pack(self, pack):
        said, texts = self.check(pack, pack.paths()), pack.texts()
        unread = next((it for it in said if RT.unread(it, texts)), None)
        if unread or not said[-1].startswith(("logic=", "only=")):
            return self.divide([*pack.functions], unread or next((it for it in said if "error" in it), said[-1]))
        told = read_check(said)
        for edit, functions in pack.functions.items():
            goals = [own_goal(it, self.crate.name, told, texts) for it in functions]
            goals += [] if edit.is_inside else [own_goal_of_any(self.crate.name, told)]
            shown = next((it for it in goals if it), None)
            if shown:
                self.told[edit] = True, f"refused: {shown}"
            elif len(pack.functions) == 1:
                self.told[edit] = False, why_not(edit, self.crate.name, told)

    def check(self, pack, paths):
        """The lines of a check of these functions, or of the whole crate where there are none."""
        only = [word for it in dict.fromkeys(paths) for word in ("--only", it)]
        with with_holes(self.crate, {*paths} | self.no_holes, pack) if only else contextlib.nullcontext(self.crate) as crate:
            # (with nothing kept: hardly a crate has a second check, and to keep takes a twentieth of the time)
            ran = RT.checked(crate, {} if only else pack.texts(), ["--jobs", "1", *(only and ["--allow-holes"]), *only], None)
        said = ran.stdout.rstrip("\n").split("\n")
        refused = {it[1].replace("/", "::") for it in map(REFUSED_HOLE.match, said) if it} - self.no_holes
        if refused:
            # (a cycle of calls without files, or a function for which the check has another name)
            self.no_holes |= refused
            return self.check(pack, paths)
        # (a name that the check has not, or has twice, is left to a check of the whole)
        return self.check(pack, []) if only and any(map(UNKNOWN.match, said)) else said

    def divide(self, edits, unread):
        """Tries the halves of the edits whose text can't be read together."""
        if len(edits) == 1:
            self.told[edits[0]] = False, f"the edited text can't be read: {unread[:200]}"
            return
        half = len(edits) // 2
        self.try_pack(Pack(self.crate, edits[:half]))
        self.try_pack(Pack(self.crate, edits[half:]))


def try_crate(crate, passed):
    """A line for each edit of a crate, with whether it passed."""
    edits = edits_of(crate)
    known = passed.find(crate, edits)
    lacking = [it.name for it in crate.below() if not os.path.isdir(it.rlib)]
    if lacking and len(known) < len(edits):
        return [(False, f"{crate.name}: its library {lacking[0]} is not built: `rt all check` builds it")]
    told = Trial(crate, [it for it in edits if it not in known]).run()
    passed.keep(crate, {it: text for it, (well, text) in told.items() if well})
    told |= {it: (True, f"{text} (by an earlier run of the same)") for it, text in known.items()}
    return [(told[it][0], f"{crate.name}/{it.name}: {told[it][1]}") for it in edits]


def edits_of(crate):
    """The edits of a crate, by their names."""
    return [Edit(it, crate) for it in sorted(pathlib.Path(crate.folder, FOLDER).glob("*.edit"))]


def edited_lines(crate):
    """How many lines the functions have that a crate's edits change, each as often as one changes it: a guess at how dear they are to try."""
    return sum(function.last - function.first for edit in edits_of(crate) for function in edit.functions)


def jobs():
    """How many checks run side by side: a processor and about 5 GB of memory each."""
    number = os.environ.get("RT_JOBS", "")
    return int(number) if number.isdigit() and int(number) else max(1, min(RT.processors(), RT.free() // 5_000_000_000))


def main():
    names = {*sys.argv[1:]} - {"--anew"}
    RT.rtlib.guarded()
    every = RT.rtlib.crates_below(os.getcwd())
    passed_before = Passed(every, "--anew" in sys.argv)
    crates = [it for it in every if os.path.isdir(f"{it.folder}/{FOLDER}")]
    unknown = names - {it.name for it in crates}
    if unknown:
        sys.exit(f"no crate with a folder {FOLDER}: {' '.join(sorted(unknown))}")
    crates = [it for it in crates if it.name in names or not names]
    # the dearest first, so that none is left over at the end
    crates.sort(key=lambda it: -edited_lines(it))
    passed = failed = 0
    with concurrent.futures.ThreadPoolExecutor(jobs()) as lanes:
        for ended in concurrent.futures.as_completed([lanes.submit(try_crate, it, passed_before) for it in crates]):
            for well, text in ended.result():
                print(text if well else f"FAILED: {text}", flush=True)
                passed, failed = passed + well, failed + (not well)
    print(f"{passed} passed, {failed} failed")
    sys.exit(failed > 0)


if __name__ == "__main__":
    main()
