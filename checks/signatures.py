#!/usr/bin/env python3
"""Makes docs/signatures.md: what `mohairjade` exports, with bounds and clauses, as the sources have it.

    checks/signatures.py [--write]

Prints the page, or writes it to its file. Each item stands under its crate and file: the first sentence of its comment, its head, its
public functions, and the heads of its impls. Bodies and ghost members are left out, and what only terminal operations call.
"""

import argparse
import pathlib
import re

ROOT = pathlib.Path(__file__).resolve().parent.parent
PAGE = ROOT / "docs" / "signatures.md"
TOP = "mohairjade"
INTRODUCTION = """# Signatures

What the crate `mohairjade` exports, by crate and file, made by `checks/signatures.py` from the sources: for each item the first sentence
of its comment, its head, and its functions with what they require and ensure; `{ .. }` stands for a default. Names in clauses stand in the
`specs/` of the crates. Left out are bodies, ghost members, and the methods of `Stream` that hand on its progress, which only terminal
operations call.
"""
USE = re.compile(r"^pub use (\w+)::(?:\{([^}]*)\}|(\w+));", re.MULTILINE)
ITEM = re.compile(r"^pub (?:struct|enum|trait|fn|const|type) (\w+)\b")
METHOD, PUBLIC = re.compile(r"^    (?:final )?fn \w+"), re.compile(r"^    pub (?:final )?fn \w+")
NONE = re.compile(r"(?!)")
IMPL = re.compile(r"^impl\b")


def exported():
    """For each crate, lowest first, the names that are exported of it, with the module of `mohairjade` before them."""
    found = {}
    for file in sorted((ROOT / "crates" / TOP / "src").rglob("*.rt")):
        module = "" if file.stem == "lib" else f"{file.stem}::"
        for crate, several, one in USE.findall(file.read_text()):
            for name in re.findall(r"\w+", several or one):
                found.setdefault(crate, {})[name] = f"{module}{name}"
    order = re.findall(r"^(\w+)\b.*:", (ROOT / "crates.txt").read_text(), re.MULTILINE)
    return {crate: found[crate] for crate in sorted(found, key=order.index)}


def head_at(lines, first):
    """The head of a function, an impl or a trait that begins at this line, with its clauses and without its body."""
    indent = re.match(" *", lines[first])[0]
    for at in range(first, len(lines)):
        line = lines[at]
        if line == f"{indent}{{":
            return lines[first:at]
        if line.endswith((" {", " {}", ";")):
            return [*lines[first:at], re.sub(r"( \{\}?|;)$", "", line)]
    raise ValueError(f"no end of {lines[first]}")


def sentence_above(lines, at):
    """The first sentence of the comment above an item or a function, or nothing."""
    while at > 0 and re.match(r" *(#\[|//)", lines[at - 1]):
        at -= 1
    said = []
    for line in lines[at:]:
        words = line.strip()
        if words.startswith("///"):
            said.append(words[3:].strip())
        elif not words.startswith(("#[", "//")):
            break
    paragraph = " ".join(said).split("  ")[0].split("```")[0].strip()
    sentence = re.match(r"(.*?\.)(?= [A-Z`]|$)", paragraph)
    return sentence[1] if sentence else re.sub(":$", ".", paragraph)


def block_at(lines, first):
    """The lines between the head and the closing brace of an impl, a trait, a struct or an enum."""
    if lines[first].endswith((";", " {}")):
        return []
    opened = next(at for at in range(first, len(lines)) if lines[at].endswith("{"))
    closed = next(at for at in range(opened, len(lines)) if lines[at] == "}")
    return lines[opened + 1:closed]


def members(lines, wanted):
    """The types of a trait or an impl, and its functions of the wanted kind, each with its first sentence; `{ .. }` stands for a default."""
    types = [line for line in lines if re.match(r"    type \w+", line)]
    for at, line in enumerate(lines):
        head = head_at(lines, at) if wanted.match(line) else []
        arguments = "\n".join(head).partition("where\n")[0].partition("requires ")[0]
        if head and "Self::Progress" not in arguments:
            said = sentence_above(lines, at)
            is_default = wanted is METHOD and not lines[at + len(head) - 1].endswith(";") and "final" not in line
            types += [*([""] if types else []), *([f"    /// {said}"] if said else []), *head[:-1], head[-1] + (" { .. }" if is_default else ";")]
    return types


def braced(head, body):
    """A head with what stands in its braces, if there is anything."""
    return [*head[:-1], f"{head[-1]} {{", *body, "}"] if body else [*head[:-1], f"{head[-1]};"]


def type_at(lines, at):
    """A struct or an enum: what it derives, its head, its public fields or its variants."""
    derived = [line for line in lines[max(at - 4, 0):at] if line.startswith("#[derive(")][-1:]
    body = block_at(lines, at)
    if not body:
        return [*derived, lines[at]]
    is_enum = lines[at].startswith("pub enum")
    seen = [line for line in body if not re.match(r" *(#\[|//|ghost )", line) and (is_enum or line.startswith("    pub "))]
    return [*derived, *braced(head_at(lines, at), seen if is_enum else seen + (["    .."] if len(seen) < len(body) else []))]


def impls_of(name, files):
    """The impls of a type of these files: its own functions, and the heads of the others with their types."""
    for lines in files.values():
        for at, line in enumerate(lines):
            head = head_at(lines, at) if IMPL.match(line) else []
            trait, _, of = " ".join(it.strip() for it in head).rpartition(" for ")
            subject = re.sub(r"^impl(<.*?>(?= \w))?", "", of).strip() if not trait else of
            if head and re.match(rf"(&'?\w* ?)?{name}\b", subject):
                body = members(block_at(lines, at), NONE if trait else PUBLIC)
                if body or trait:
                    yield ["", *braced(head, body)]


def entry(name, shown, lines, at, files):
    """The entry of one item."""
    if lines[at].startswith("pub trait"):
        code = braced(head_at(lines, at), members(block_at(lines, at), METHOD))
    elif lines[at].startswith(("pub struct", "pub enum")):
        code = [*type_at(lines, at), *(line for impl in impls_of(name, files) for line in impl)]
    else:
        head = head_at(lines, at)
        code = [*head[:-1], f"{head[-1]};"]
    return "\n".join([f"#### `{shown}`", "", *filter(None, [sentence_above(lines, at)]), "", "```rust", *code, "```", ""])


def page():
    """The whole page."""
    index = [f"| [{crate}](#{crate}) | {', '.join(f'`{it}`' for it in names.values())} |" for crate, names in exported().items()]
    parts = [INTRODUCTION, "\n".join(["| crate | what is exported of it |", "|---|---|", *index, ""])]
    for crate, names in exported().items():
        folder = ROOT / "crates" / crate / "src"
        files = {file: file.read_text().split("\n") for file in sorted(folder.rglob("*.rt"))}
        parts.append(f"## {crate}\n")
        for file, lines in files.items():
            found = [(it[1], at) for at, line in enumerate(lines) if (it := ITEM.match(line)) and it[1] in names]
            if found:
                parts.append(f"### [{file.relative_to(folder)}](../{file.relative_to(ROOT)})\n")
            parts += [entry(name, names.pop(name), lines, at, files) for name, at in found]
        if names:
            raise ValueError(f"{crate} has no {', '.join(names)}")
    return "\n".join(parts)


def main():
    parser = argparse.ArgumentParser()
    parser.add_argument("--write", action="store_true", help="write docs/signatures.md")
    if parser.parse_args().write:
        PAGE.write_text(page())
    else:
        print(page(), end="")


if __name__ == "__main__":
    main()
