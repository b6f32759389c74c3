"""Inputs of the bench: books of horses, trims and readings as hoofrun's bytes."""

import random
import sys
from pathlib import Path

sys.path.insert(0, str(Path(__file__).resolve().parents[1] / "tools"))

from booktext.calls import CALL, LEVEL_KINDS, PLAIN_KINDS, ROW_KINDS, call_words, where_words
from booktext.names import name_value  # the loads take it from here
from booktext.reader import read_text
from booktext.schema import schema_bytes

MOST_AREA_WORDS = 8192  # of hoofrun
BEGIN, SAVEPOINT = PLAIN_KINDS["begin"], PLAIN_KINDS["savepoint"]
ROLLBACK, COMMIT = PLAIN_KINDS["rollback"], PLAIN_KINDS["commit"]
RELEASE, ROLLBACK_TO = LEVEL_KINDS["release"], LEVEL_KINDS["rollback to"]
INSERT, UPDATE, DELETE = (ROW_KINDS[verb] for verb in ("insert", "update", "delete"))


class Calls:
    """A schema and the calls made so far."""

    def __init__(self, text, most_area_words=MOST_AREA_WORDS):
        self.schema = read_text(text).schema
        words = sum(table.rows * (len(table.columns) + 1) for table in self.schema.tables)
        assert 333 + words + 10 * self.schema.journal <= most_area_words, "area too long"
        self.calls = []

    def __len__(self):
        return len(self.calls)

    def add(self, kind, a=0, b=0, values=()):
        """One more call."""
        self.calls.append(CALL.pack(*call_words(kind, a, b, values)))

    def add_where(self, table, sought, given=None):
        """One more call: every row with the cell sought is deleted, or updated to the cell given."""
        self.calls.append(CALL.pack(*where_words(table, sought, given)))

    def to_bytes(self):
        """The whole input."""
        return schema_bytes(self.schema) + b"".join(self.calls)


class Yard:
    """Horses and their trims: sends calls and knows which rows they leave live."""

    HORSES, TRIMS = 0, 1

    def __init__(self, text, seed, yard_column=False, spare_columns=0):
        self.calls = Calls(text)
        self.random = random.Random(seed)
        self.constant = [1] if yard_column else []  # a first column that is the same in every row
        self.spare_columns = spare_columns
        self.horses, self.trims = {}, {}  # row: number; row: number of the horse
        self.last_number = 0
        self.used = 0  # journal records of the open transaction
        self.levels = []  # what was live when each level opened
        self.room = self.calls.schema.journal
        self.sizes = [table.rows for table in self.calls.schema.tables]

    def new_number(self):
        """A number that no horse had."""
        self.last_number += 1
        return self.last_number

    def spare(self):
        """Values of the columns that are in no key."""
        return [self.random.randrange(100) for _ in range(self.spare_columns)]

    def key_of(self, number):
        """The values by which a horse is named."""
        return self.constant + [number]

    def trims_of(self, number):
        """The rows of a horse's trims."""
        return [row for row, horse in self.trims.items() if horse == number]

    def put_horse(self, row, number):
        """Enters or renumbers a horse; its trims follow."""
        kind = UPDATE if row in self.horses else INSERT
        self.calls.add(kind, self.HORSES, row, self.key_of(number) + self.spare())
        following = self.trims_of(self.horses.get(row)) if self.horses.get(row) != number else []
        self.trims.update(dict.fromkeys(following, number))
        self.horses[row] = number
        self.used += 1 + len(following)

    def put_trim(self, row, number):
        """Enters a trim of a horse, or moves it there."""
        kind = UPDATE if row in self.trims else INSERT
        self.calls.add(kind, self.TRIMS, row, [row] + self.key_of(number) + self.spare())
        self.trims[row] = number
        self.used += 1

    def delete_horse(self, row):
        """Deletes a horse with its trims."""
        self.calls.add(DELETE, self.HORSES, row)
        following = self.trims_of(self.horses.pop(row))
        for trim in following:
            del self.trims[trim]
        self.used += 1 + len(following)

    def delete_trim(self, row):
        """Deletes a trim."""
        self.calls.add(DELETE, self.TRIMS, row)
        del self.trims[row]
        self.used += 1

    def open_level(self, kind):
        """Opens a transaction or a savepoint."""
        self.levels.append((dict(self.horses), dict(self.trims), self.used))
        self.calls.add(kind)

    def back_to(self, level):
        """Rolls back to a level, which stays open."""
        horses, trims, self.used = self.levels[level - 1]
        self.horses, self.trims = dict(horses), dict(trims)
        del self.levels[level:]
        self.calls.add(ROLLBACK_TO, level)

    def release(self, level):
        """Releases a level and those above it."""
        del self.levels[level - 1 :]
        self.calls.add(RELEASE, level)

    def close(self, kind):
        """Commits or rolls back."""
        if kind == ROLLBACK:
            self.horses, self.trims, _ = self.levels[0]
        self.levels, self.used = [], 0
        self.calls.add(kind)

    def any_number(self):
        """The number of some live horse."""
        return self.random.choice(list(self.horses.values()))

    def statement(self):
        """A statement on some row: a vacant one is filled, a live one changed or at times deleted."""
        choice = self.random.random()
        if not self.levels:
            self.used = 0
        if choice < 0.02 and self.horses:  # refused: the row is live
            self.calls.add(INSERT, self.HORSES, next(iter(self.horses)), self.key_of(0) + self.spare())
        elif choice < 0.35 or not self.horses:
            self.horse_statement(self.random.randrange(self.sizes[self.HORSES]))
        else:
            self.trim_statement(self.random.randrange(self.sizes[self.TRIMS]))

    def horse_statement(self, row):
        """Enters, renumbers, writes again or deletes a horse."""
        choice = self.random.random()
        if row not in self.horses or choice < 0.4:
            self.put_horse(row, self.new_number())
        elif choice < 0.7:
            self.put_horse(row, self.horses[row])
        else:
            self.delete_horse(row)

    def trim_statement(self, row):
        """Enters, moves, writes again or deletes a trim."""
        choice = self.random.random()
        if row not in self.trims or choice < 0.3:
            self.put_trim(row, self.any_number())
        elif choice < 0.65:
            self.put_trim(row, self.trims[row])
        else:
            self.delete_trim(row)

    def fill(self):
        """Enters horses and trims in two thirds of the rows."""
        for row in range(0, self.sizes[self.HORSES] * 2 // 3):
            self.put_horse(row, self.new_number())
        for row in range(0, self.sizes[self.TRIMS] * 2 // 3):
            self.put_trim(row, self.any_number())

    def trim_before_horse(self):
        """A trim whose horse comes after it: one orphan until then."""
        trim = self.random.randrange(self.sizes[self.TRIMS])
        horse = self.random.randrange(self.sizes[self.HORSES])
        if horse not in self.horses:
            number = self.new_number()
            self.put_trim(trim, number)
            self.put_horse(horse, number)

    def transaction(self, statements, deferred=False):
        """A transaction of about so many statements, with savepoints, ended in one of three ways."""
        self.open_level(self.random.choice((BEGIN, SAVEPOINT)))
        for _ in range(statements):
            choice = self.random.random()
            if self.used > self.room - 40:
                break
            if choice < 0.05 and len(self.levels) < 9:
                self.open_level(SAVEPOINT)
            elif choice < 0.08 and len(self.levels) > 1:
                level = self.random.randint(2, len(self.levels))
                self.random.choice((self.back_to, self.release))(level)
            elif choice < 0.2 and deferred:
                self.trim_before_horse()
            else:
                self.statement()
        self.close(self.random.choice((COMMIT, COMMIT, COMMIT, ROLLBACK)))
