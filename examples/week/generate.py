#!/usr/bin/env python3
"""Writes herd.csv, visits.csv and visits-leftover.csv into a folder, always the same: generate.py FOLDER

160 cows in three groups, a box to each, and a week that they live twice: by the rules on paper (visits.csv), and as it goes when the
old line 240 is left behind the retyped one (visits-leftover.csv). A cow that was milked comes again when she has made enough milk to be
willing; one that was refused comes back, patient cows after an hour or so, impatient ones after minutes. Who finds the box taken or
washed stands at the gate until it is her turn, two hours at most, and a few walk up to it all the same; arrived is the minute from which
on she stood there. At a box there is at most one visit in a minute.

Every cow has random numbers of her own. So the two weeks are the same until the leftover line first lets a cow in, and what differs
from then on follows from that.

The seed is a middle one, not the one that shows most: seeds.py has the figures of others. It is one of those in which cow 118 stands at
the same gate at the same minute in both weeks and comes in 40 minutes early in the second.
"""
import csv
import heapq
import pathlib
import random
import sys

import onpaper
from onpaper import DAY

SEED = 129
COWS = 160
WEEK = 7 * DAY
SLOW = (9, 23, 31, 42, 50, 57, 66, 74, 85, 91, 97, 101, 111, 118, 126, 134, 139, 148, 155)
IMPATIENT = (17, 23, 31, 42, 57, 66, 80, 85, 97, 101, 118, 126, 134, 144, 148, 155)
FRESH = (5, 17, 57, 76, 104, 130, 144, 159)
BLOCKED = {12: WEEK, 36: 2 * DAY + 6 * 60, 71: 4 * DAY + 9 * 60, 88: DAY + 7 * 60 + 30, 151: WEEK, 140: 5 * DAY + 15 * 60}
STRAYS = (27, 80, 116, 129)  # cows that now and then get into another group
PATIENCE = 120  # minutes at a gate, after which a cow walks away and comes again later
LONGEST = 118  # the slowest of all: her milk comes at less than a litre a minute, and then she stays on


class Chance:
    """Random numbers that are the same everywhere: only random() is promised to be."""

    def __init__(self, seed):
        self.random = random.Random(seed).random

    def between(self, low, high):
        return low + int(self.random() * (high - low + 1))

    def about(self, middle, spread):
        """Three dice for a bell: from middle - spread to middle + spread."""
        return round(middle + spread * (self.random() + self.random() + self.random() - 1.5) / 1.5)

    def happens(self, share):
        return self.random() < share


def litres_at(days):
    """The usual course: up to 42 litres at seven weeks, then down by a litre in twelve days."""
    return 26 + days * 16 / 50 if days < 50 else 42 - (days - 50) / 12


def make_cow(number, chance):
    days = chance.between(31, 310)
    if number in SLOW or number in IMPATIENT:
        days = chance.between(35, 170)
    if number in FRESH:
        days = chance.between(2, 20)
    litres = round(litres_at(days) * (0.8 + 0.35 * chance.random()))
    flow = chance.between(13, 19) if number in SLOW else chance.about(31, 8)
    lingers = chance.between(4, 15) if number in SLOW else chance.between(0, 1)
    if number == LONGEST:
        flow, lingers = 9, 30
    last_end = -chance.between(10, 560)
    cow = {
        "cow": number,
        "box": 1 + (number - 1) % 3,
        "litres": litres,
        "flow_dl": flow,
        "lingers": lingers,
        "days": days,
        "blocked_until": BLOCKED.get(number, 0),
        "last_start": 0,
        "last_end": last_end,
    }
    cow["last_start"] = last_end - onpaper.stay(cow, last_end + 6 * 60)  # as if it had been six hours' milk
    return cow


class Barn:
    """A week that the cows live, with the leftover line or without."""

    def __init__(self, herd, seed, has_leftover):
        self.herd = {cow["cow"]: dict(cow) for cow in herd}
        self.chances = {cow["cow"]: Chance(1000 * seed + 500 + cow["cow"]) for cow in herd}
        self.has_leftover = has_leftover
        self.free = {1: 0, 2: 0, 3: 0}
        self.visits, self.gate_used, self.queue, self.turn = [], set(), [], 0
        for cow in self.herd.values():
            self.comes(cow, max(0, cow["last_end"] + self.willing(cow)))

    def comes(self, cow, minute):
        """She comes to a gate, in most cases her group's, and waits for her turn, in most cases."""
        chance = self.chances[cow["cow"]]
        strays, waits = chance.happens(0.12), not chance.happens(0.02)
        box = 1 + cow["box"] % 3 if strays and cow["cow"] in STRAYS else cow["box"]
        self.turn += 1
        heapq.heappush(self.queue, (minute, self.turn, cow["cow"], box, minute, waits))

    def willing(self, cow):
        """Minutes from the end of a milking until she comes again by herself."""
        chance = self.chances[cow["cow"]]
        if cow["cow"] in IMPATIENT:
            may = 240 if cow["cow"] in FRESH else 320 if cow["cow"] in SLOW else 300
            return may + chance.between(-24, 2)
        wait = max(250, 7 * DAY // cow["litres"]) + chance.about(320, 300)
        return wait if chance.happens(0.88) else chance.between(20, 200)

    def back(self, cow, rule):
        """Minutes until a refused cow comes back."""
        chance = self.chances[cow["cow"]]
        if rule == 3:
            return chance.between(300, 900)
        return chance.between(4, 9) if cow["cow"] in IMPATIENT else chance.between(35, 150)

    def by_day(self, cow, minute):
        """Many cows sleep from one to five."""
        chance = self.chances[cow["cow"]]
        if 60 <= minute % DAY < 300 and chance.happens(0.3):
            return minute - minute % DAY + 300 + chance.between(0, 240)
        return minute

    def is_free(self, box, minute):
        """A minute after a cow has left the box, the next one stands at its gate."""
        return minute > self.free[box] and not onpaper.is_washed(box, minute)

    def live(self):
        while self.queue:
            minute, turn, number, box, arrived, waits = heapq.heappop(self.queue)
            if minute >= WEEK:
                continue
            if waits and minute - arrived > PATIENCE:
                self.comes(self.herd[number], minute + self.chances[number].between(30, 90))
            elif (waits and not self.is_free(box, minute)) or (minute, box) in self.gate_used:
                heapq.heappush(self.queue, (minute + 1, turn, number, box, arrived, waits))
            else:
                self.knock(minute, box, self.herd[number], arrived)
        return sorted(self.visits, key=lambda visit: (visit["minute"], visit["box"]))

    def knock(self, minute, box, cow, arrived):
        self.gate_used.add((minute, box))
        self.visits.append({"minute": minute, "box": box, "cow": cow["cow"], "arrived": arrived})
        since = onpaper.interval(cow, minute, self.has_leftover)
        is_shut = minute < self.free[box] or onpaper.is_washed(box, minute)
        comes_in, rule = onpaper.decide(cow, since, minute, box, is_shut)
        if comes_in:
            end = minute + onpaper.stay(cow, minute)
            cow["last_start"], cow["last_end"], self.free[box] = minute, end, end
            self.comes(cow, self.by_day(cow, end + self.willing(cow)))
        else:
            self.comes(cow, minute + self.back(cow, rule))


def make_herd(seed):
    return [make_cow(number, Chance(1000 * seed + number)) for number in range(1, COWS + 1)]


def write(path, made):
    with open(path, "w", newline="") as file:
        table = csv.DictWriter(file, made[0].keys(), lineterminator="\n")
        table.writeheader()
        table.writerows(made)


def main(folder, seed=SEED):
    herd = make_herd(seed)
    write(folder / "herd.csv", herd)
    write(folder / "visits.csv", Barn(herd, seed, has_leftover=False).live())
    write(folder / "visits-leftover.csv", Barn(herd, seed, has_leftover=True).live())


if __name__ == "__main__":
    if len(sys.argv) != 2:
        sys.exit(__doc__)
    main(pathlib.Path(sys.argv[1]))
