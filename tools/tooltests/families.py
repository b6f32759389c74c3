"""Tests of two families of tables: two calls of a transaction in either order, and the journal that they share."""

import random

from booktext.calls import CALL
from booktext.orphans import ask_orphans
from booktext.reader import read_text
from booktext.runner import run_hoofrun

RANDOM_BOOKS = 40
PAIRS = 10  # of two families and of one, in each book
ROWS = 3  # of each table
VALUES = ("null", 0, 1, 2, 3)  # few, so that keys meet, and the same in both families
ROOM = 200  # journal records: more than all calls below use
ROLLBACK = ["rollback to 2"]

# The tables of each family, and the table that their second column names.
FAMILIES = (
    {"horses": "horses", "visits": "horses", "trims": "visits"},
    {"trucks": "trucks", "trips": "trucks"},
)
TABLES = [table for family in FAMILIES for table in family]
COLUMNS = ("number", "of")


def random_schema(source):
    """Tables and keys in any order, so that the numbers of both families are mixed; without the journal."""
    lines = []
    for table in source.sample(TABLES, len(TABLES)):
        lines += [f"table {table} rows {ROWS}", "  column number not null unique"]
        lines += [f"  column of default {source.choice(VALUES)}"]
    keys = [ends for family in FAMILIES for ends in family.items()]
    actions = ("no action", "restrict", "set null", "set default", "cascade", "cascade")
    for child, parent in source.sample(keys, len(keys)):
        clauses = f"on delete {source.choice(actions)} on update {source.choice(actions)}"
        clauses += source.choice(("", " deferred", " deferred"))
        lines.append(f"key {child}.of -> {parent}.number {clauses}")
    return "\n".join(lines)


def random_call(source, tables):
    """An insert, update or delete on one of the tables, of one row or of every row found."""
    table, row = source.choice(list(tables)), source.randrange(ROWS)
    cells = f"number={source.choice(VALUES[1:])} of={source.choice(VALUES)}"
    given = f"{source.choice(COLUMNS)}={source.choice(VALUES)}"
    sought = f"{source.choice(COLUMNS)} = {source.choice(VALUES)}"
    of_one_row = f"insert {table} {row} {cells}", f"update {table} {row} {cells}", f"delete {table} {row}"
    of_rows_found = f"delete {table} where {sought}", f"update {table} set {given} where {sought}"
    return source.choice(of_one_row + 2 * of_rows_found)


def random_calls(source):
    """Rows, then some calls in a transaction, then level 2."""
    entered = [
        f"insert {table} {row} number={row} of={source.choice(VALUES)}"
        for table in TABLES for row in range(ROWS)
    ]
    return entered + ["begin"] + [random_call(source, TABLES) for _ in range(4)] + ["savepoint"]


def reading_calls():
    """Calls whose answers tell the rows: how many have each value, while row after row is deleted."""
    for table in TABLES:
        for row in range(ROWS):
            for column in COLUMNS:
                yield from (f"update {table} set {column}={v} where {column} = {v}" for v in VALUES)
            yield f"delete {table} {row}"


class RandomBook:
    """A schema and calls that have opened level 2."""

    def __init__(self, source):
        self.schema = random_schema(source)
        self.calls = random_calls(source)
        self.reading = self.to_bytes(list(reading_calls()))[len(self.to_bytes([])):]

    def to_bytes(self, calls, journal=ROOM):
        """The bytes of the schema and these calls."""
        return read_text("\n".join([self.schema, f"journal {journal}", *calls])).to_bytes()

    def answers(self, pair, journal=ROOM):
        """The answers to the calls of the book and to two more."""
        return run_hoofrun(self.to_bytes(self.calls + pair, journal))[0]

    def told(self, pair):
        """What is told of two calls in this order: their answers, the orphans, the rows, also after a rollback."""
        data = self.to_bytes(self.calls + pair)
        rolled_back = self.to_bytes(ROLLBACK)[-CALL.size:]
        answers = run_hoofrun(data + self.reading + rolled_back + self.reading)[0][len(self.calls):]
        return dict(zip(pair, answers)), ask_orphans(data), answers[2:]


def accepted(answers):
    """Whether all are."""
    return all(code == 0 for code, _, _ in answers)


def check_journal(checks, book, pair):
    """With as many records as both calls need, each order is accepted; with one less the second is refused."""
    used = sum(changed for _, changed, _ in book.answers(pair)[book.calls.index("begin"):])
    for order in (pair, pair[::-1]):
        for journal, code in ((used, 0), (used - 1, 15)):
            found = [answer[0] for answer in book.answers(order, journal)[-2:]]
            checks.check(f"{order} with {journal} journal records", found == [0, code], found)


def check_families(checks):
    """Two calls of two families in either order; of one family, where the order is seen to matter."""
    source, changes, nets, within = random.Random(2024), 0, 0, 0
    for number in range(RANDOM_BOOKS):
        book = RandomBook(source)
        for _ in range(PAIRS):
            pair = [random_call(source, family) for family in source.sample(FAMILIES, 2)]
            found = book.told(pair)
            answers = found[0].values()
            if accepted(answers):
                other = book.told(pair[::-1])
                checks.check(f"either order in random book {number}: {pair}", other == found, (found, other))
                nets += any(net for _, _, net in answers)
                if all(changed for _, changed, _ in answers):
                    changes += 1
                    check_journal(checks, book, pair)
        for _ in range(PAIRS):
            pair = [random_call(source, FAMILIES[number % 2]) for _ in range(2)]
            found = book.told(pair)
            if accepted(found[0].values()):
                other = book.told(pair[::-1])
                within += accepted(other[0].values()) and other[2] != found[2]
    checks.check("random pairs of which both calls change rows", changes > 9, changes)
    checks.check("random pairs with a net", nets > 9, nets)
    checks.check("random pairs of one family, accepted in both orders, with other rows", within > 2, within)
