"""What a row costs that is gone through, with a plain and with a folded column."""

import math
import sys
from functools import partial

from growth import BATCH, batches
from inputs import DELETE, INSERT, Calls, name_value
from sides import Sides

SIZES = 32, 1024  # rows; a row's cost is the difference divided by the rows more
MARKS = "", "folded"  # of the column that is compared
BATCHES, ROUNDS = 6400, 9
SENSORS, READINGS = 0, 1

SENSORS_TEXT = """\
table sensors rows {sensors}
  column name {mark} unique
"""
TIED_TEXT = SENSORS_TEXT + """\
table readings rows {readings}
  column sensor {mark}
key readings.sensor -> sensors.name on delete cascade
"""


def name(number):
    """A name as a value; all are equal but for the last of their eight characters."""
    return name_value(f"Lf{number:06}")


def book(text, **fields):
    """A book without calls."""
    return Calls(text.format(**fields) + f"journal {BATCH}\n")


def fill(calls, table, rows):
    """Enters so many rows of a table with names."""
    for row in range(rows):
        calls.add(INSERT, table, row, [name(row)])


def search(rows, mark):
    """Sensors are sought by a name that none has."""
    calls = book(SENSORS_TEXT, sensors=rows, mark=mark)
    fill(calls, SENSORS, rows)
    return calls, lambda i: calls.add_where(SENSORS, (0, name(rows + i)), (0, 0))


def unique_key(rows, mark):
    """A sensor is entered; another one with its name is looked for."""
    calls, live = book(SENSORS_TEXT, sensors=rows, mark=mark), rows - BATCH
    fill(calls, SENSORS, live)
    return calls, lambda i: calls.add(INSERT, SENSORS, live + i, [name(live + i)])


def parent_rows(rows, mark):
    """A reading of the last sensor is entered; its sensor is looked for."""
    calls = book(TIED_TEXT, sensors=rows, readings=BATCH, mark=mark)
    fill(calls, SENSORS, rows)
    return calls, lambda i: calls.add(INSERT, READINGS, i, [name(rows - 1)])


def child_rows(rows, mark):
    """A sensor without readings is deleted; its readings are looked for."""
    calls = book(TIED_TEXT, sensors=BATCH + 1, readings=rows, mark=mark)
    fill(calls, SENSORS, BATCH + 1)
    for row in range(rows):
        calls.add(INSERT, READINGS, row, [name(BATCH)])
    return calls, lambda i: calls.add(DELETE, SENSORS, i)


SCANS = {
    "a search that finds no row": search,
    "the unique key of an insert": unique_key,
    "parents of an inserted row": parent_rows,
    "children of a deleted row": child_rows,
}


def best_seconds(sides, scan):
    """The best seconds of hoofrun for each mark and size; the inputs take turns, round after round."""
    inputs = {
        (mark, rows): batches(partial(scan, rows, mark), BATCHES) for mark in MARKS for rows in SIZES
    }
    best = dict.fromkeys(inputs, math.inf)
    for _ in range(ROUNDS):
        for which, data in inputs.items():
            best[which] = min(best[which], sides.best(data, 1)[0])
    return best


def row_costs(sides, scan):
    """Nanoseconds of hoofrun for one row that is gone through, with a plain and with a folded column."""
    best, (few, many) = best_seconds(sides, scan), SIZES
    rows = BATCHES * BATCH * (many - few)
    return [(best[mark, many] - best[mark, few]) / rows * 1e9 for mark in MARKS]


def print_scans(sides):
    """One line for each scan: the cost of a row with a plain column, with a folded one, and the ratio."""
    print(f"{'nanoseconds a row scanned':32}{'plain':>12}{'folded':>12}{'ratio':>12}")
    for what, scan in SCANS.items():
        plain, folded = row_costs(sides, scan)
        print(f"{what:32}{plain:12.2f}{folded:12.2f}{folded / plain:12.2f}", flush=True)


def main():
    """scans.py HOOFRUN SQLITE_SIDE FOLDER"""
    if len(sys.argv) != 4:
        sys.exit("usage: scans.py HOOFRUN SQLITE_SIDE FOLDER")
    print_scans(Sides(*sys.argv[1:4]))


if __name__ == "__main__":
    main()
