#!/usr/bin/env python3
"""Counts the items of a plain metadata text by their first word, without a grammar: an item ends at
a semicolon that no brace encloses.

count_items.py FILE: a line `items N`, and each kind with its count.
"""
import re
import sys

KINDS = ("typealias", "struct", "variant", "enum", "trace", "stream", "event", "clock", "env", "callsite")
PARTS = re.compile(r'/\*.*?\*/|//[^\n]*|"(?:\\.|[^"\\])*"|[{};]|\w+', re.DOTALL)


def main() -> None:
    with open(sys.argv[1], encoding="latin-1") as file:
        text = file.read()
    counts = dict.fromkeys(KINDS, 0)
    depth, first = 0, None
    for part in PARTS.findall(text):
        if part.startswith(("/*", "//")):
            continue
        if first is None:
            first = part
        if part == "{":
            depth += 1
        elif part == "}":
            depth -= 1
        elif part == ";" and depth == 0:
            counts[first] += 1
            first = None
    print("items", sum(counts.values()), *(f"{kind} {count}" for kind, count in counts.items()))


main()
