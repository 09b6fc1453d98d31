#!/usr/bin/env python3
"""forms.py FORM FOLDER: writes the lists of five/ into FOLDER in another form, for the tests. FORM is comma, tab or minutes: commas between
fields, decimals and texts in quotes, ISO times; TABs, columns in another order, blank lines, LF; or minutes of the week and tenths of a
litre."""
import csv
import datetime
import pathlib
import sys

HERE = pathlib.Path(__file__).resolve().parent
MONDAY = datetime.datetime(2026, 11, 16)


def rows(name):
    with open(HERE / "five" / name, encoding="utf-8-sig", newline="") as file:
        return [row for row in csv.DictReader(file, delimiter=";") if row["Cow"]]


def moment(text, form):
    if not text:
        return text
    time = datetime.datetime.strptime(text, "%d.%m.%Y %H:%M")
    if form == "minutes":
        return int((time - MONDAY).total_seconds()) // 60
    return time.isoformat(" " if form == "comma" else "T", "seconds")


def changed(row, form):
    times = ("Time", "Left", "Blocked_until", "Last_start", "Last_end")
    row = {name: moment(value, form) if name in times else value for name, value in row.items()}
    if form == "minutes" and "Flow" in row:
        row["flow_dl"] = row.pop("Flow").replace(",", "")
    return dict(reversed(row.items())) if form == "tab" else row


def write(path, made, form):
    with open(path, "w", newline="") as file:
        table = csv.DictWriter(
            file,
            made[0].keys(),
            delimiter="\t" if form == "tab" else ",",
            lineterminator="\n\n" if form == "tab" else "\r\n",
            quoting=csv.QUOTE_ALL if form == "comma" else csv.QUOTE_MINIMAL,
        )
        table.writeheader()
        table.writerows(made)


def main(form, folder):
    for name in ("herd.csv", "visits.csv"):
        write(folder / name, [changed(row, form) for row in rows(name)], form)


if __name__ == "__main__":
    if len(sys.argv) != 3 or sys.argv[1] not in ("comma", "tab", "minutes"):
        sys.exit(__doc__)
    main(sys.argv[1], pathlib.Path(sys.argv[2]))
