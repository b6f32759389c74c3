"""The inputs that the bench measures, each a book and a load of calls."""

import random

from inputs import BEGIN, COMMIT, DELETE, INSERT, UPDATE, Calls, Yard

TRIMS = """\
table horses rows {horses}
  column number not null unique
{horse_spare}table trims rows {trims}
  column number not null unique
  column horse
{trim_spare}{keys}journal {journal}
"""
CASCADE = "on delete cascade on update cascade"


def trims_text(horses, trims, journal, spare=0, keys=1, deferred=""):
    """Horses and trims; a trim's horse is a foreign key, or several that are equal."""
    key = f"key trims.horse -> horses.number {CASCADE} {deferred}\n"
    columns = "".join(f"  column note{i}\n" for i in range(spare))
    return TRIMS.format(
        horses=horses, trims=trims, journal=journal, keys=key * keys,
        horse_spare=columns, trim_spare=columns,
    )


TWO_COLUMNS = """\
table horses rows {horses}
  column yard not null
  column number not null
  unique (yard, number)
table trims rows {trims}
  column number not null unique
  column yard not null
  column horse
key trims.(yard, horse) -> horses.(yard, number) {cascade}
journal {journal}
"""


def two_columns_text(horses, trims, journal):
    """Horses and trims; a trim names its horse by yard and number together."""
    return TWO_COLUMNS.format(horses=horses, trims=trims, journal=journal, cascade=CASCADE)


def autocommit(yard, count):
    """Statements outside a transaction, on tables that are two thirds full at first."""
    yard.fill()
    while len(yard.calls) < count:
        yard.statement()
    return yard.calls


def transactions(yard, count, statements, deferred=False):
    """Transactions of up to so many statements, on tables that are two thirds full at first."""
    yard.fill()
    yard.used = 0
    while len(yard.calls) < count:
        yard.transaction(yard.random.randint(statements // 4, statements), deferred)
    return yard.calls


def empty_transactions(yard, count):
    """begin and commit with nothing between."""
    yard.fill()
    while len(yard.calls) < count:
        yard.calls.add(BEGIN)
        yard.calls.add(COMMIT)
    return yard.calls


def herd(yard, count):
    """A horse with a trim in every row is renumbered again and again."""
    yard.put_horse(0, yard.new_number())
    for trim in range(yard.sizes[yard.TRIMS]):
        yard.put_trim(trim, 1)
    for _ in range(count // 40):
        yard.put_horse(0, yard.new_number())
    return yard.calls


class Pedigree:
    """Lines of horses in a table that refers to itself; each horse is the foal of the one before."""

    LONGEST = 16
    ROWS = 700

    def __init__(self, seed):
        self.calls = Calls(
            f"table horses rows {self.ROWS}\n"
            "  column number not null unique\n"
            "  column dam default null\n"
            f"key horses.dam -> horses.number {CASCADE}\n"
            "journal 100\n"
        )
        self.random = random.Random(seed)
        self.lines = []  # each a list of pairs of row and number
        self.vacant = list(range(self.ROWS))
        self.last_number = 0

    def new_number(self):
        """A number that no horse had."""
        self.last_number += 1
        return self.last_number

    def grow(self):
        """A foal of the last horse of some line, or the first horse of a new one."""
        short = [line for line in self.lines if len(line) < self.LONGEST]
        if len(short) < 8:
            short = [[]]
            self.lines += short
        line = self.random.choice(short)
        row = self.vacant.pop(self.random.randrange(len(self.vacant)))
        number = self.new_number()
        self.calls.add(INSERT, 0, row, [number, line[-1][1] if line else None])
        line.append((row, number))

    def cut(self, line):
        """Deletes a horse of a line and so all that come from it."""
        keep = self.random.choice((0, 0, self.LONGEST // 2, self.LONGEST - 1))
        self.calls.add(DELETE, 0, line[keep][0])
        self.vacant += [row for row, _ in line[keep:]]
        del line[keep:]

    def renumber(self, line):
        """Gives the first horse of a line a new number; its foal follows."""
        row, number = line[0][0], self.new_number()
        self.calls.add(UPDATE, 0, row, [number, None])
        line[0] = row, number


def pedigree(count):
    """Lines grow to their full length, are renumbered at times, and are cut when there are many."""
    load = Pedigree(2)
    while len(load.calls) < count:
        full = [line for line in load.lines if len(line) == load.LONGEST]
        if len(full) > 25:
            load.cut(load.random.choice(full))
        elif full and load.random.random() < 0.15:
            load.renumber(load.random.choice(full))
        else:
            load.grow()
    return load.calls


def sixteen_tables(count):
    """Sixteen tables, each the parent of the next: a renumbering or a deletion goes through all."""
    rows, tables = 30, 16
    columns = "  column number not null unique\n  column note\n"
    text = "".join(f"table visits{i} rows {rows}\n{columns}" for i in range(tables))
    for i in range(1, tables):
        text += f"key visits{i}.number -> visits{i - 1}.number {CASCADE}\n"
    calls, source = Calls(text + "journal 300\n"), random.Random(3)
    numbers = [0] * rows
    depths = [0] * rows  # in how many of the tables a row is live
    while len(calls) < count:
        row, note = source.randrange(rows), source.randrange(9)
        depth = depths[row]
        if depth == 0 or depth == tables and source.random() < 0.8:
            numbers[row] = len(calls)  # a number that no row had
            calls.add(UPDATE if depth else INSERT, 0, row, [numbers[row], note])
            depths[row] = depth or 1
        elif depth < tables:
            calls.add(INSERT, depth, row, [numbers[row], note])
            depths[row] = depth + 1
        else:
            depths[row] = source.choice((0, 4, 12))
            calls.add(DELETE, depths[row], row)
    return calls
