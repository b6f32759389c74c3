"""Tests of folded columns in the engine: what unique keys, searches and foreign keys find equal."""

import random

from booktext.calls import CALL, ROW_KINDS, WHERE_KINDS, call_words, where_words
from booktext.orphans import ask_orphans
from booktext.reader import read_text
from booktext.runner import run_hoofrun

RANDOM_BOOKS = 60
CALLS = 40  # of a random book
INSERT, UPDATE, DELETE = (ROW_KINDS[verb] for verb in ("insert", "update", "delete"))

# Sensors have folded names, which readings name in a plain column; with horses it is the other way round.
BOOK = """\
table sensors rows 4
  column name folded unique default "rh9"
table horses rows 4
  column name unique
table readings rows 4
  column number unique
  column sensor default "RH9"
  column horse folded
key readings.sensor -> sensors.name on delete {delete} on update {update} deferred
key readings.horse -> horses.name on update cascade
journal 16
insert sensors 0 name="Lf2"
insert readings 0 number=21 sensor="lf2" horse=null
insert readings 1 number=22 sensor="LF2" horse=null
insert readings 2 number=23 sensor="lf2" horse=null
"""
ENTERED = 4  # calls of BOOK
DELETE_READINGS = "delete readings where sensor = "

# The actions of key 0, calls after those of BOOK, and their answers.
ANSWERS = [
    # Respelling runs no action, renaming does, and the new key is written as typed.
    ("cascade", 'update sensors 0 name="LF2"\nupdate sensors 0 name="LF3"', [(0, 1, 0), (0, 4, 0)]),
    ("cascade", f'update sensors 0 name="lF3"\n{DELETE_READINGS}"lF3"', [(0, 4, 0), (0, 3, 0)]),
    ("cascade", f'update sensors 0 name="lF2"\n{DELETE_READINGS}"lF2"', [(0, 1, 0), (0, 0, 0)]),
    ("cascade", 'update sensors set name="lF2" where name = "LF2"', [(0, 1, 0)]),
    ("cascade", 'delete sensors where name = "lF2"', [(0, 4, 0)]),
    ("restrict", 'update sensors 0 name="lf2"\nupdate sensors 0 name="lf3"', [(0, 1, 0), (18, 0, 0)]),
    ("restrict", "delete sensors 0", [(18, 0, 0)]),
    ("set null", 'update sensors 0 name="lf2"\nupdate sensors 0 name=null', [(0, 1, 0), (0, 4, 0)]),
    # The default is written as typed, and a folded parent serves it.
    ("set default", "delete sensors 0", [(20, 0, 0)]),
    ("set default", 'insert sensors 1 name="rH9"\ndelete sensors 0', [(0, 1, 0), (0, 4, 0)]),
    (
        "set default",
        'insert sensors 1 name="rH9"\ndelete sensors 0\n'
        f'{DELETE_READINGS}"rH9"\n{DELETE_READINGS}"RH9"',
        [(0, 1, 0), (0, 4, 0), (0, 0, 0), (0, 3, 0)],
    ),
    ("no action", 'update sensors 0 name="LF2"\nupdate sensors 0 name="LF3"', [(0, 1, 0), (20, 0, 0)]),
    # A row is no other than itself, and 40, 5B, 60 and 7B are no letters.
    ("no action", 'insert sensors 1 name="lf2"\nupdate sensors 0 name="lf2"', [(17, 0, 0), (0, 1, 0)]),
    ("no action", 'insert sensors 1 name="@["\ninsert sensors 2 name="`{"', [(0, 1, 0), (0, 1, 0)]),
    ("no action", "insert sensors 1 name=null\ninsert sensors 2 name=null", [(0, 1, 0), (0, 1, 0)]),
    # The parent's mark counts: to horses a folded column of the readings is no help.
    (
        "no action",
        'insert horses 0 name="Bella"\nupdate readings 0 number=21 sensor=null horse="bella"',
        [(0, 1, 0), (20, 0, 0)],
    ),
    (
        "no action",
        'insert horses 0 name="Bella"\nupdate readings 0 number=21 sensor=null horse="Bella"'
        '\nupdate horses 0 name="BELLA"\nupdate readings set horse=null where horse = "bella"',
        [(0, 1, 0), (0, 1, 0), (0, 2, 0), (0, 1, 0)],
    ),
    ("no action", 'insert horses 0 name="Bella"\ninsert horses 1 name="bella"', [(0, 1, 0), (0, 1, 0)]),
]


def check_answers(checks):
    """Answers that are written out above."""
    for action, calls, answers in ANSWERS:
        text = BOOK.format(delete=action, update=action) + calls + "\n"
        found = run_hoofrun(read_text(text).to_bytes())[0][ENTERED:]
        checks.check(f"folded names, {action}: {calls!r}", found == answers, found)


# Both keys are of one child row; the first has a folded parent column, the second a plain one.
TABLES = """\
table t0 rows 4
  column c0 folded unique
table t1 rows 4
  column c0 unique
table t2 rows 6
  column c0
  column c1 folded
  unique (c0, c1)
key t2.c0 -> t0.c0 deferred
key t2.c1 -> t1.c0 deferred
journal 400
begin
"""
ROWS, MARKS, PARENTS = (4, 4, 6), ((True,), (False,), (False, True)), (0, 1)
# Spellings of a few names, and others with a byte beside the letters, from 80 on, or after a 0.
VALUES = tuple(
    int.from_bytes(spelling.ljust(8, b"\0"), "little", signed=True)
    for spelling in (
        b"Lf2", b"lf2", b"LF2", b"@", b"`", b"[", b"{", b"\xc1", b"\xe1", b"Lf2\0\0\0\0Z",
        b"lF2\0\0\0\0z", b"ZZZZZZZ\xda", b"zzzzzzz\xda", b"zzzzzzz\xfa", b"AAAAAAA\xff", b"aAaAaAa\xff",
    )
)


def folded(value):
    """The bytes of a value with 41 to 5A raised by 20."""
    return value.to_bytes(8, "little", signed=True).lower()


def equal(mark, one, other):
    """Whether two values are equal in a column with this mark."""
    if one is None or other is None:
        return False
    return folded(one) == folded(other) if mark else one == other


def random_call(source):
    """A row of one of the tables is entered, changed or deleted, or all those found by a value."""
    table, kind = source.randrange(3), source.choice((INSERT, INSERT, UPDATE, DELETE, None, None))
    columns = len(MARKS[table])
    values = [source.choice((None, *VALUES, *VALUES)) for _ in range(columns)]
    if kind is not None:
        return call_words(kind, table, source.randrange(ROWS[table]), [] if kind == DELETE else values)
    sought = source.randrange(columns), source.choice(VALUES)
    return where_words(table, sought, source.choice((None, (source.randrange(columns), values[0]))))


class Model:
    """The rows of TABLES, changed by calls as the paper has it; no key has an action."""

    def __init__(self):
        self.tables = [{}, {}, {}]  # of each table: row, and its values

    def is_taken(self, table, row, values):
        """Whether another row has the table's unique key, which is all its columns."""
        return any(
            all(map(equal, MARKS[table], values, others))
            for other, others in self.tables[table].items() if other != row
        )

    def write(self, table, row, values):
        """Writes one row, a deleted one without values; answers the code."""
        if values is not None and self.is_taken(table, row, values):
            return 17
        self.tables[table].pop(row, None)
        if values is not None:
            self.tables[table][row] = values
        return 0

    def change_row(self, kind, table, row, mask, *words):
        """Kinds 1 to 3: the code and the rows changed."""
        values = [None if mask >> c & 1 else words[c] for c in range(len(MARKS[table]))]
        if (row in self.tables[table]) == (kind == INSERT):
            return 11, 0
        code = self.write(table, row, None if kind == DELETE else values)
        return code, int(code == 0)

    def change_found(self, kind, table, column, mask, value, set_column, set_value, *_):
        """Kinds 10 and 11: likewise; a refused row puts all back."""
        before, changed = dict(self.tables[table]), 0
        for row in range(ROWS[table]):
            values = list(self.tables[table].get(row, [None] * 2))
            if not equal(MARKS[table][column], values[column], value):
                continue
            values[set_column] = None if mask & 2 else set_value
            if self.write(table, row, None if kind == WHERE_KINDS["delete"] else values):
                self.tables[table] = before
                return 17, 0
            changed += 1
        return 0, changed

    def answer(self, words):
        """The code of a call and the rows changed."""
        return self.change_row(*words) if words[0] <= DELETE else self.change_found(*words)

    def orphans(self):
        """Those of both keys, by key and then by row."""
        return [
            (key, row) for key in PARENTS for row, values in sorted(self.tables[2].items())
            if values[key] is not None and not self.has_parent(key, values[key])
        ]

    def has_parent(self, key, value):
        """Whether the parent table of a key has the value, by the mark of its column."""
        return any(equal(MARKS[key][0], parent, value) for parent, in self.tables[key].values())


def check_random_books(checks):
    """Answers, nets and the orphan list against the model; capitals must have made a difference."""
    source, codes, found, orphans = random.Random(2024), [], 0, 0
    schema = read_text(TABLES).to_bytes()
    for number in range(RANDOM_BOOKS):
        calls, model = [random_call(source) for _ in range(CALLS)], Model()
        data = schema + b"".join(CALL.pack(*words) for words in calls)
        answers = run_hoofrun(data)[0][1:]
        wanted = [model.answer(words) for words in calls]
        right = wanted == [answer[:2] for answer in answers]
        checks.check(f"answers of random folded book {number}", right, answers)
        listed = model.orphans()
        right = ask_orphans(data) == (0, listed) and sum(net for _, _, net in answers) == len(listed)
        checks.check(f"orphans of random folded book {number}", right, listed)
        codes += [code for code, _ in wanted]
        found += sum(words[0] > DELETE and changed > 0 for words, (_, changed) in zip(calls, wanted))
        orphans += len(listed)
    met = min(codes.count(17), codes.count(11), found, orphans)
    checks.check("random folded books with refusals, rows found and orphans", met > 30, met)


def check_folded(checks):
    """Every check of folded columns in the engine."""
    for run in (check_answers, check_random_books):
        run(checks)
