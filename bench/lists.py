"""Measures the engine's orphan list and SQLite's own check on the same bytes and prints a table."""

import math
import sys
from functools import partial
from itertools import zip_longest
from pathlib import Path

from inputs import BEGIN, INSERT, Calls, name_value
from loads import trims_text
from names import name_of, names_text
from questions import best, print_heading, print_times

LISTS = 30  # of each run
SIZES = ((8, 128), (32, 1024))  # foreign keys; rows of each table
PARENTS, CHILDREN = 0, 1

# Whether the child of a row is an orphan.
LOADS = {
    "no orphan": lambda row, rows: False,
    "the last row": lambda row, rows: row == rows - 1,
    "every other row": lambda row, rows: row % 2 == 1,
    "every row": lambda row, rows: True,
}


def both_numbers(number):
    """What the horse with a number and its trims have in the key's columns."""
    return number, number


def both_names(number):
    """What the sensor with a number and its readings have there: one name in two spellings."""
    name = name_of(number)
    return name_value(name), name_value(name.swapcase())


# The text of a book, and what parent and child have in the key's columns.
KINDS = {"keys": (trims_text, both_numbers), "folded keys": (names_text, both_names)}


def filled(kind, keys, rows, is_orphan):
    """Two full tables in an open transaction, the children tied to the parents by so many equal keys."""
    book_text, both_values = KINDS[kind]
    of_parents, of_children = zip(*map(both_values, range(2 * rows)))
    text = book_text(rows, rows, 2 * rows, keys=keys, deferred="deferred")
    calls = Calls(text, most_area_words=math.inf)
    calls.add(BEGIN)
    for row in range(rows):
        calls.add(INSERT, PARENTS, row, [of_parents[row]])
    for row in range(rows):
        number = row + rows if is_orphan(row, rows) else row
        calls.add(INSERT, CHILDREN, row, [row, of_children[number]])
    return calls.to_bytes()


def compare(name, ours, theirs):
    """Both must list the same orphans, and the engine by foreign key number, then by rising row."""
    for our, their in zip_longest(sorted(ours), sorted(theirs)):
        if our != their:
            sys.exit(f"lists: {name}: sorted, the lists differ at {our} and {their}")
    if ours != sorted(ours):
        sys.exit(f"lists: {name}: the engine's list is not in its order")


def print_lists(programs, folder):
    """One line for each book and load; its input stays in the folder as list1.bin and so on."""
    print_heading("milliseconds a list", "orphans")
    books = [(kind, keys, rows, load) for kind in KINDS for keys, rows in SIZES for load in LOADS]
    for number, (kind, keys, rows, load) in enumerate(books, 1):
        path = Path(folder) / f"list{number}.bin"
        path.write_bytes(filled(kind, keys, rows, LOADS[load]))
        name = f"{keys} {kind}, {rows:,} rows: {load}"
        ours, theirs, orphans = best(programs, "orphans", LISTS, path, partial(compare, name))
        print_times(name, len(orphans), ours * 1e3, theirs * 1e3)


def main():
    """lists.py ENGINE_SIDE SQLITE_SIDE FOLDER"""
    if len(sys.argv) != 4:
        sys.exit("usage: lists.py ENGINE_SIDE SQLITE_SIDE FOLDER")
    print_lists(sys.argv[1:3], sys.argv[3])


if __name__ == "__main__":
    main()
