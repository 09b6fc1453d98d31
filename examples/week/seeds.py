#!/usr/bin/env python3
"""seeds.py [FIRST LAST]: lives the two weeks of generate.py with each seed from FIRST to LAST (1 to 40), and says in how many of them
the complaint can be seen from Thursday noon on: with the leftover line more slow milkings, fewer litres each, and fresh cows that stood
behind one let in early. Exits 0 only if all three signs are there in at least 7 of 8 seeds and, for the seeds 1 to 40, README.md has the
figures. It is beside the tests."""
import statistics
import sys
import tempfile
import pathlib

import counted
import generate
import onpaper


def slow(sums):
    """Milkings by rule 7 from Thursday noon on, and litres each."""
    milkings, _, _, milk, *_ = sums["changed rule", 7]
    return milkings, milk / onpaper.DAY / milkings


def figures(seed, folder):
    """More slow milkings, litres more each, visits let in early, minutes that fresh cows stood behind those, 118's minutes early."""
    generate.main(folder, seed)
    onpaper.HERE = counted.HERE = folder
    right, faulty = counted.weeks(has_leftover=False), counted.weeks(has_leftover=True)
    first, second = counted.sums(right), counted.sums(faulty)
    (milkings, litres), (more, less) = slow(first), slow(second)
    early = [extra["early"] for told, extra in faulty if told[3] == 118 and extra["early"]]
    return more - milkings, less - litres, second["changed", ""][5], second["changed rule", 6][7], early


def main(first, last):
    with tempfile.TemporaryDirectory() as room:
        rows = {seed: figures(seed, pathlib.Path(room)) for seed in range(first, last + 1)}
    print("seed  slow milkings  litres each  let in early  fresh behind, min  cow 118 early, min")
    for seed, (milkings, litres, early, behind, cow) in rows.items():
        print(f"{seed:4}  {milkings:+13}  {litres:+11.2f}  {early:12}  {behind:17}  {' '.join(map(str, cow))}")
    means = [statistics.mean(row[column] for row in rows.values()) for column in range(4)]
    print(f"mean  {means[0]:+13.1f}  {means[1]:+11.2f}  {means[2]:12.1f}  {means[3]:17.0f}")
    signs = sum(row[0] > 0 and row[1] < 0 and row[3] > 0 for row in rows.values())
    forty = sum(40 in row[4] for row in rows.values())
    print(f"All three signs in {signs} of {len(rows)} seeds; cow 118 early in {sum(bool(row[4]) for row in rows.values())}, by forty minutes in {forty}")
    told = [f"| slow milkings more | {means[0]:.1f} |", f"| litres each | {-means[1]:.2f} less |", f"| visits let in early | {means[2]:.1f} |",
            f"| minutes that fresh cows stood behind them | {means[3]:.0f} |", f"are there in {signs} of the 40", f"by forty minutes in {forty}."]
    readme = (pathlib.Path(__file__).resolve().parent / "README.md").read_text()
    missing = [words for words in told if words not in readme] if (first, last) == (1, 40) else []
    print(*(f"README.md does not say: {words}" for words in missing), sep="\n", end="")
    return 8 * signs >= 7 * len(rows) and not missing


if __name__ == "__main__":
    words = sys.argv[1:] or ["1", "40"]
    if len(words) != 2:
        sys.exit(__doc__)
    sys.exit(not main(*map(int, words)))
