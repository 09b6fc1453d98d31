#!/usr/bin/env python3
"""edges.py FOLDER: writes a herd list and a list of visits that stand on the edges of rules.md, a minute, a litre or a tenth on each
side, and one for every two rules that both speak, where the week's own visits need not come. Each cow has one visit, so her interval is
what her last milking makes it."""
import csv
import pathlib
import sys

DAY = 24 * 60
THURSDAY_NOON = 3 * DAY + 12 * 60
GAP = 30  # minutes between visits at a box: no milking here takes so long
STAY = 25  # minutes of her last milking, so that it matters from where on the interval counts

herd, visits = [], []


def visit(minute, interval=400, box=1, litres=40, flow=30, days=100, blocked_until=0, home=None):
    """A cow of her own; without more words she comes in by rule 8."""
    cow = len(herd) + 1
    start, end = minute - interval, minute - interval + STAY
    if minute >= THURSDAY_NOON:
        start, end = start - STAY, end - STAY
    herd.append((cow, home or box, litres, flow, 0, days, blocked_until, start, end))
    visits.append((minute, box, cow, minute))


def in_turn(start, rows):
    """Visits one after the other, each with what is special about it."""
    for at, row in enumerate(rows):
        visit(start + GAP * at, **row)


def box():
    for number, first in ((1, 5 * 60), (2, 5 * 60 + 40), (3, 6 * 60 + 20)):
        for wash in (first, first + 8 * 60, first + 16 * 60):
            for day, minute in enumerate((wash - 1, wash, wash + 19, wash + 20)):  # a day each: who comes in takes the box
                visit(day * DAY + minute, box=number)
    start = 4 * DAY
    for after, interval in ((0, 360), (4, 400), (5, 400)):  # 9 litres at 3 a minute: 2 minutes and 3
        visit(start + after, interval, litres=36)


def wash():
    """A milking that runs into a wash, and one that outlasts it."""
    visit(5 * DAY + 4 * 60 + 55, 720, flow=10)  # 22 minutes
    for minute in (4 * 60 + 59, 5 * 60 + 1, 5 * 60 + 18, 5 * 60 + 20):
        visit(5 * DAY + minute, litres=20, interval=1000)
    visit(5 * DAY + 5 * 60 + 39, 720, box=2, flow=8)  # 27 minutes
    for minute in (6 * 60, 6 * 60 + 5, 6 * 60 + 6):
        visit(5 * DAY + minute, box=2)


def block():
    start = 4 * DAY + 60
    in_turn(start, [{"blocked_until": start + GAP * at + late} for at, late in enumerate((-1, 0, 1))])


def milk():
    edges = [(litres, interval) for litres in (10, 13, 14) for interval in (719, 720, 721)]
    edges += [(15, 671), (15, 672), (15, 719), (33, 305), (33, 306), (40, 251), (40, 252)]
    in_turn(4 * DAY + 13 * 60 + 20, [{"litres": litres, "interval": interval} for litres, interval in edges])  # between two washes


def minutes():
    rows = [{"interval": interval, "days": 1} for interval in (239, 240)]
    rows += [{"interval": interval} for interval in (299, 300)]
    rows += [{"interval": 310, "flow": flow} for flow in (19, 20, 21)]
    rows += [{"interval": interval, "flow": 19} for interval in (359, 360)]
    in_turn(5 * DAY + 8 * 60, rows)
    in_turn(DAY + 8 * 60, rows)
    for minute, number, interval in ((THURSDAY_NOON - 1, 1, 360), (THURSDAY_NOON, 2, 359), (THURSDAY_NOON, 3, 360)):
        visit(minute, interval, box=number, flow=19)


def fresh():
    midnight = 6 * DAY
    for minute, number, days in ((midnight - 1, 1, 26), (midnight - 1, 2, 25), (midnight, 1, 24), (midnight, 3, 25)):
        visit(minute, 250, box=number, days=days)


# What makes each rule speak; of two that do, the first has to decide. Rules 5 and 6 never both speak.
SPEAKS = {
    2: {"home": 2},
    3: {"blocked_until": 7 * DAY},
    4: {"interval": 230},
    5: {"litres": 20},
    6: {"days": 1},
    7: {"flow": 19},
    8: {},
}
BOTH = {(6, 7): {"interval": 250}, (6, 8): {"interval": 250}, (7, 8): {"interval": 330}}


def pairs():
    start = 6 * DAY + 13 * 60 + 20
    for at, rule in enumerate(SPEAKS):  # while the box is washed
        visit(6 * DAY + 13 * 60 + at, **SPEAKS[rule])
    rest = [(one, other) for one in SPEAKS for other in SPEAKS if one < other and (one, other) != (5, 6)]
    for at, (one, other) in enumerate(rest):
        both = {**SPEAKS[one], **SPEAKS[other], **BOTH.get((one, other), {})}
        visit(start + 20 * at, **both)  # 20 such visits, in the time between two washes


def write(folder, name, head, rows):
    with open(folder / name, "w", newline="") as file:
        csv.writer(file, lineterminator="\n").writerows([head, *rows])


def main(folder):
    for edge in (box, wash, block, milk, minutes, fresh, pairs):
        edge()
    head = ("cow", "box", "litres", "flow_dl", "lingers", "days", "blocked_until", "last_start", "last_end")
    write(folder, "herd.csv", head, herd)
    write(folder, "visits.csv", ("minute", "box", "cow", "arrived"), sorted(visits))


if __name__ == "__main__":
    if len(sys.argv) != 2:
        sys.exit(__doc__)
    main(pathlib.Path(sys.argv[1]))
