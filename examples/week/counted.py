#!/usr/bin/env python3
"""What onpaper.py decides, counted.

counted.py sums      the week of visits.csv: admitted and refused visits, minutes in the box, litres, short milkings, early ones, waits
counted.py leftover  the same of visits-leftover.csv, with the old rule after Thursday noon
counted.py early     who comes in early there: the rules would have let her in so many minutes later
counted.py behind    who stood at a gate there while a cow was in the box that had come in early
"""
import sys

import onpaper
from onpaper import DAY, DAYS, HERE, THURSDAY_NOON

RULES = ("Box", "Group", "Blocked", "Four hours", "Milk", "Fresh", "Slow", "Others")


def litres(milk):
    tenths = (10 * milk + DAY // 2) // DAY
    return f"{tenths // 10}.{tenths % 10}"


def minutes_early(told, extra):
    """Where the old rule lets her in: how long the new one would have made her wait, all else staying as it is."""
    minute, cow, by = told[0], extra["before"], 0
    if minute < THURSDAY_NOON or told[4] == "refused":
        return 0
    while not onpaper.decide(cow, minute + by - cow["last_end"], minute + by, told[2], extra["is_shut"])[0]:
        by += 1
    return by


def weeks(has_leftover):
    """Every visit of a week, with how early she came in and how long she had stood behind an early one."""
    visits = HERE / ("visits-leftover.csv" if has_leftover else "visits.csv")
    week = list(onpaper.week(visits, has_leftover))
    for told, extra in week:
        extra["early"] = minutes_early(told, extra) if has_leftover else 0
    stays = [(told[2], told[0], told[0] + extra["took"]) for told, extra in week if extra["early"]]
    for told, extra in week:
        waits = [min(told[0], end) - max(extra["arrived"], start) for box, start, end in stays if box == told[2]]
        extra["behind"] = sum(wait for wait in waits if wait > 0)
    return week


def is_short(told, extra):
    return told[4] == "admitted" and 4 * extra["milk"] < extra["before"]["litres"] * DAY


def keys(told):
    minute, _, box, cow, _, rule, _ = told
    yield from (("week", ""), ("box", box), ("day", DAYS[minute // DAY]), ("rule", rule), ("cow", cow))
    if minute >= THURSDAY_NOON:
        yield from (("changed", ""), ("changed rule", rule))


def sums(week):
    herd = [cow["cow"] for cow in onpaper.rows(HERE / "herd.csv")]
    kinds = [("week", [""]), ("box", range(1, 4)), ("day", DAYS), ("rule", range(1, 9)), ("cow", herd), ("changed", [""]),
             ("changed rule", range(1, 9))]
    counts = {(kind, key): [0] * 8 for kind, each in kinds for key in each}
    for told, extra in week:
        admitted = told[4] == "admitted"
        parts = (admitted, not admitted, extra["took"], extra["milk"], is_short(told, extra), extra["early"] > 0,
                 extra["behind"] > 0, extra["behind"])
        for key in keys(told):
            counts[key] = [count + int(part) for count, part in zip(counts[key], parts)]
    return counts


def print_sums(week):
    print("of,which,admitted,refused,minutes in box,litres,short,early,behind early,minutes behind early")
    for key, (admitted, refused, took, milk, *rest) in sums(week).items():
        print(*key, admitted, refused, took, litres(milk), *rest, sep=",")


def print_early(week):
    print("minute,time,box,cow,interval,since end,minutes early,rule,litres")
    for (minute, clock, box, cow, _, rule, interval), extra in week:
        if extra["early"]:
            since = minute - extra["before"]["last_end"]
            print(minute, clock, box, cow, interval, since, extra["early"], rule, litres(extra["milk"]), sep=",")


def print_behind(week):
    print("minute,time,box,cow,decision,rule,rule name,waited,minutes behind early")
    for (minute, clock, box, cow, decision, rule, _), extra in week:
        if extra["behind"]:
            waited = minute - extra["arrived"]
            print(minute, clock, box, cow, decision, rule, RULES[rule - 1], waited, extra["behind"], sep=",")


def main(what):
    prints = {"sums": print_sums, "leftover": print_sums, "early": print_early, "behind": print_behind}
    if what not in prints:
        sys.exit(__doc__)
    prints[what](weeks(has_leftover=what != "sums"))


if __name__ == "__main__":
    main(sys.argv[1] if len(sys.argv) == 2 else "")
