"""Measures the engine's bound of a delete and the same sum in SQL on the same bytes and prints a table."""

import math
import sys
from functools import partial
from pathlib import Path

from inputs import INSERT, Calls
from questions import best, print_heading, print_times

TIMES = 300  # of each run
SIZES = ((1, 128), (1, 1024), (16, 128), (16, 1024))  # tables; rows of each
COLUMNS = "  column number not null unique\n  column dam\n  column sire\n  column note\n"


def pedigrees_text(tables, rows):
    """Tables of horses; dam and sire are horses of the same table, and cleared when these are deleted."""
    text = "".join(f"table yard{t} rows {rows}\n{COLUMNS}" for t in range(tables))
    for t in range(tables):
        for column in ("dam", "sire"):
            text += f"key yard{t}.{column} -> yard{t}.number on delete set null\n"
    return text + "journal 1\n"


def parents(row):
    """Dam and sire of the horse in a row: of two horses one has a dam, of three one has a sire."""
    return [row - 1 if row % 2 else None, row - 2 if row % 3 == 2 else None]


def filled(tables, rows):
    """Full tables, and the bound."""
    calls = Calls(pedigrees_text(tables, rows), most_area_words=math.inf)
    for table in range(tables):
        for row in range(rows):
            calls.add(INSERT, table, row, [row, *parents(row), row])
    counted = sum(3 - parents(row).count(None) for row in range(rows))
    return calls.to_bytes(), tables * counted


def compare(name, bound, ours, theirs):
    """Both must give the bound."""
    if not ours == theirs == [(bound,)]:
        sys.exit(f"bounds: {name}: the bound is {bound}, the answers are {ours} and {theirs}")


def print_bounds(programs, folder):
    """One line for each size; its input stays in the folder as bound1.bin and so on."""
    print_heading("microseconds a bound", "bound")
    for number, (tables, rows) in enumerate(SIZES, 1):
        path = Path(folder) / f"bound{number}.bin"
        data, bound = filled(tables, rows)
        path.write_bytes(data)
        name = f"{tables} table{'s' * (tables > 1)} of {rows:,} rows"
        ours, theirs, _ = best(programs, "bound", TIMES, path, partial(compare, name, bound))
        print_times(name, bound, ours * 1e6, theirs * 1e6)


def main():
    """bounds.py ENGINE_SIDE SQLITE_SIDE FOLDER"""
    if len(sys.argv) != 4:
        sys.exit("usage: bounds.py ENGINE_SIDE SQLITE_SIDE FOLDER")
    print_bounds(sys.argv[1:3], sys.argv[3])


if __name__ == "__main__":
    main()
