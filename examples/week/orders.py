#!/usr/bin/env python3
"""orders.py BOOK FOLDER: writes books into FOLDER that ask the rules of BOOK in a wrong order, 'J before I.nib' for every two rules
that can both speak to one visit. The lines of a rule begin with "REM I NAME"; they are numbered anew."""
import pathlib
import re
import sys

FIRST, END = 300, 690  # the lines of the rules
NEVER_BOTH = (5, 6)


def blocks(book):
    """The lines before the rules, those of each rule, and those behind them."""
    before, behind, rules = [], [], []
    for line in book.splitlines():
        number = int(line.split(" ")[0])
        if number < FIRST or number >= END:
            (before if number < FIRST else behind).append(line)
        elif re.match(r"\d+ REM \d ", line):
            rules.append([line])
        else:
            rules[-1].append(line)
    return before, rules, behind


def ordered(book, order):
    before, rules, behind = blocks(book)
    texts = [line.split(" ", 1)[1] for rule in order for line in rules[rule - 1]]
    middle = [f"{FIRST + 2 * at} {text}" for at, text in enumerate(texts)]
    return "".join(line + "\r\n" for line in before + middle + behind)


def main(book, folder):
    text = book.read_bytes().decode()
    rules = list(range(1, 1 + len(blocks(text)[1])))
    for one in rules:
        for other in rules[one:]:
            if (one, other) != NEVER_BOTH:
                order = [rule for rule in rules if rule != other]
                order.insert(order.index(one), other)
                (folder / f"{other} before {one}.nib").write_bytes(ordered(text, order).encode())


if __name__ == "__main__":
    if len(sys.argv) != 3:
        sys.exit(__doc__)
    main(pathlib.Path(sys.argv[1]), pathlib.Path(sys.argv[2]))
