#!/usr/bin/env python3
"""Prints a struct of two fields or more as an owned item of streams: its content is a pair of its fields' contents, of three a pair with a pair.

    checks/record.py [--crate CRATE] NAME FIELD:TYPE FIELD:TYPE..

Types are String, &str and i64. The struct's crate stands on CRATE, `mohairjade` or `spliterator`. One that is only lent, as a `Row`, needs none of this.
"""

import argparse
import functools
import re

PARTS = ("content", "shown", "same", "order", "decides", "total", "ties")
TEXT = ("bytes_eq", "slice_cmp nat_cmp", "bytes_eq-decides", "bytes_cmp-total", "bytes_cmp-ties")
TYPES = {
    "String": ("LinkedList<u8>", "string_bytes o.{}", *TEXT),
    "&str": ("LinkedList<u8>", "o.{}.now", *TEXT),
    "i64": ("i64", "o.{}", "int_eq", "int_cmp", "int_eq-decides", "int_cmp-total", "int_cmp-ties"),
}
FORM = """ghost use Rattle.{crate}.specs.Words.{{{words}}};

use {crate}::{{EqualValue, OrderedValue, SortedValue, Value}};
{lists}
#[derive(Clone, PartialEq, Eq, PartialOrd, Ord, Drop)]
pub struct {name} {{
{fields}}}

impl Value for {name} {{
    type Content = {content};

    ghost content = {{ λ o. {shown} }};

    ghost same = {{ {same} }};

    ghost is_value = {{ λ {values} }};

    ghost same_decides = {{ {decides} }};

    fn is_value(&self) -> bool {{
        {checked}
    }}
}}

impl EqualValue for {name} {{
    ghost eq_is_same = {{ Prim.search }};
}}

impl OrderedValue for {name} {{
    ghost order = {{ {order} }};

    ghost order_total = {{ {total} }};

    ghost order_ties = {{ {ties} }};
}}

impl SortedValue for {name} {{
    ghost cmp_is_order = {{ Prim.search }};
}}
"""


def called(head, *parts):
    """A function's name before its arguments."""
    return " ".join([head, *(f"({part})" if " " in part else part for part in parts)])


def pair(first, second):
    """The words of a pair, of those of its parts."""
    a, b = (dict(zip(PARTS, part)) for part in (first, second))
    tests, orders = (a["same"], b["same"]), (a["order"], b["order"])
    return (
        f"({a['content']}, {b['content']})", f"({a['shown']}, {b['shown']})", called("both", *tests), called("by_first", *orders),
        called("both-decides", *tests, a["decides"], b["decides"]), called("by_first-total", a["total"], b["total"]),
        called("by_first-ties", *tests, *orders, a["ties"], b["ties"]),
    )


def block(crate, name, fields):
    """The struct and its impls."""
    rows = [(words[0], words[1].format(field), *words[2:]) for field, kind in fields for words in [TYPES[kind]]]
    whole = dict(zip(PARTS, functools.reduce(lambda behind, row: pair(row, behind), reversed(rows))))
    last = len(fields) - 1
    numbers = [(place, field) for place, (field, kind) in enumerate(fields) if kind == "i64"]
    ranges = ["IsI64 c" + ".1" * place + ("" if place == last else ".0") for place, _ in numbers]
    whole["values"] = "c. " + " × ".join(ranges) if ranges else "_. ⊤"
    whole["checked"] = " && ".join(f"self.{field}.is_value()" for _, field in numbers) or "true"
    lists = "use std::collections::LinkedList;\n" * ("LinkedList" in whole["content"])
    life = "<'a>" if "&str" in dict(fields).values() else ""
    lines = "".join(f"    pub {field}: {kind.replace('&', '&' + chr(39) + 'a ')},\n" for field, kind in fields)
    found = re.findall(r"[\w⊤-]+", " ".join(whole[part] for part in (*PARTS, "values")).replace("LinkedList", ""))
    words = sorted({word for word in found if re.search(r"_|-|both|IsI64|⊤", word) and word != "_"} - {field for field, _ in fields})
    text = FORM.format(crate=crate, words=", ".join(words), name=name + life, fields=lines, lists=lists, **whole)
    return re.sub(r"(?m)^impl (?=.*<'a>)", "impl<'a> ", text)


def main():
    parser = argparse.ArgumentParser()
    parser.add_argument("--crate", default="mohairjade", choices=["mohairjade", "spliterator"])
    parser.add_argument("name")
    parser.add_argument("fields", nargs="+")
    words = parser.parse_args()
    print(block(words.crate, words.name, [tuple(field.split(":")) for field in words.fields]), end="")


if __name__ == "__main__":
    main()
