#!/usr/bin/env python3
"""The week decided by plain code, written from rules.md alone: it knows no rule program and no interpreter.

onpaper.py [VISITS [leftover]]: prints every visit of the list (visits.csv if none is named): came in or stayed out, the rule
that decided, her interval. With the word leftover the change of Thursday noon has no effect, as if the old rule still counted.
counted.py has the sums.
"""
import csv
import pathlib
import sys

DAY = 24 * 60
DAYS = ("Mon", "Tue", "Wed", "Thu", "Fri", "Sat", "Sun")
THURSDAY_NOON = 3 * DAY + 12 * 60
WASHED = {1: 5 * 60, 2: 5 * 60 + 40, 3: 6 * 60 + 20}  # when each box is first washed in a day; then every eight hours
HERE = pathlib.Path(__file__).resolve().parent


def rows(path):
    with open(path, newline="") as file:
        return [{column: int(value) for column, value in row.items()} for row in csv.DictReader(file)]


def is_washed(box, minute):
    return (minute - WASHED[box]) % (8 * 60) < 20


def interval(cow, minute, has_leftover):
    """Her interval at this minute: from the minute she came in, and from Thursday noon on from the minute she left."""
    if minute < THURSDAY_NOON or has_leftover:
        return minute - cow["last_start"]
    return minute - cow["last_end"]


def is_fresh(cow, minute):
    return cow["days"] + minute // DAY <= 30


def decide(cow, interval, minute, box, is_shut):
    """Whether she comes in, and the number of the rule that says so. A box is shut while a cow is in it and while it is washed."""
    if is_shut:
        return False, 1
    if box != cow["box"]:
        return False, 2
    if minute < cow["blocked_until"]:
        return False, 3
    if interval < 240:
        return False, 4
    if not is_fresh(cow, minute) and interval < 720 and cow["litres"] * interval < 7 * DAY:
        return False, 5
    if is_fresh(cow, minute):
        return True, 6
    return (interval >= 360, 7) if cow["flow_dl"] < 20 else (interval >= 300, 8)


def milk(cow, minute):
    """What she brings, in parts of a litre of which a litre has DAY: she makes it from leaving the box on, for a day at most."""
    return cow["litres"] * max(0, min(minute - cow["last_end"], DAY))


def stay(cow, minute):
    """Minutes in the box: 2, her milk at her flow, rounded up, and those in which she lingers."""
    return 2 - -milk(cow, minute) // (144 * cow["flow_dl"]) + cow["lingers"]


def week(visits, has_leftover=False):
    """Every visit, what was decided, and what else is known of it: the cow as she was before it, whether the box was shut, how long
    she was in it then, and the milk she brought."""
    herd, free = {cow["cow"]: cow for cow in rows(HERE / "herd.csv")}, {1: 0, 2: 0, 3: 0}
    for visit in rows(visits):
        minute, box, cow = visit["minute"], visit["box"], herd[visit["cow"]]
        before, is_shut = dict(cow), minute < free[box] or is_washed(box, minute)
        since = interval(cow, minute, has_leftover)
        comes_in, rule = decide(cow, since, minute, box, is_shut)
        took, brought = (stay(cow, minute), milk(cow, minute)) if comes_in else (0, 0)
        if comes_in:
            cow["last_start"], cow["last_end"] = minute, minute + took
            free[box] = max(free[box], minute + took)
        clock = f"{DAYS[minute // DAY]} {minute % DAY // 60:02}:{minute % 60:02}"
        told = (minute, clock, box, cow["cow"], "admitted" if comes_in else "refused", rule, since)
        yield told, {**visit, "before": before, "is_shut": is_shut, "took": took, "milk": brought}


def main(words):
    if len(words) > 2 or words[1:] not in ([], ["leftover"]):
        sys.exit(__doc__)
    print("minute,time,box,cow,decision,rule,interval")
    for told, _ in week(words[0] if words else HERE / "visits.csv", words[1:] == ["leftover"]):
        print(*told, sep=",")


if __name__ == "__main__":
    main(sys.argv[1:])
