"""Tests of windowed keys in the engine: which reading has a calibration, 24, RESTRICT, broken ones."""

import random
from dataclasses import dataclass

from booktext.calls import CALL, ROW_KINDS, WHERE_KINDS, call_words, where_words
from booktext.orphans import ask_orphans
from booktext.reader import read_text
from booktext.runner import run_hoofrun

RANDOM_BOOKS = 120
CALLS = 60  # of a random book
INSERT, UPDATE, DELETE = (ROW_KINDS[verb] for verb in ("insert", "update", "delete"))

# Two calibrations of sensor 7 that touch, and a reading on either side of the border.
BOOK = """\
table calibrations rows 4
  column sensor not null
  column first folded
  column end
  unique (sensor, first)
table readings rows 4
  column number unique
  column sensor
  column day
key readings.(sensor, day) -> calibrations.(sensor, first) windowed {clauses}
journal 8
insert calibrations 0 sensor=7 first=10 end=20
insert calibrations 1 sensor=7 first=20 end=30
insert readings 0 number=21 sensor=7 day=19
insert readings 1 number=22 sensor=7 day=20
"""
ENTERED = 4  # calls of BOOK
RESTRICT = "on delete restrict on update restrict"
DONE, BEGUN = (0, 1, 0), (0, 0, 0)
NOT_NULL, TAKEN, HELD, ORPHAN, BROKEN, BAD = ((code, 0, 0) for code in (16, 17, 18, 20, 23, 24))


def reading(day, sensor=7, row=2):
    """The call that enters one more reading."""
    return f"insert readings {row} number={21 + row} sensor={sensor} day={day}"


def calibration(first, end, row=2, sensor=7, verb="insert"):
    """The call that enters a calibration, or writes it anew."""
    return f"{verb} calibrations {row} sensor={sensor} first={first} end={end}"


def moved(first, end, row=0, sensor=7):
    """The call that writes a calibration anew."""
    return calibration(first, end, row, sensor, "update")


# The clauses of the key, calls after those of BOOK, each with its answer.
ANSWERS = [
    # The first day is in the window, the end is not.
    ("", [(reading(9), ORPHAN), (reading(10), DONE)]),
    ("", [(reading(30), ORPHAN), (reading(29), DONE)]),
    ("", [(reading(15, sensor=8), ORPHAN), (reading("null"), DONE), (reading(5, "null", 3), DONE)]),
    ("match full", [(reading("null"), ORPHAN), (reading("null", "null"), DONE)]),
    ("deferred", [("begin", BEGUN), (reading(30), (0, 1, 1)), (calibration(30, 31), (0, 1, -1))]),
    # 24: an empty window, or a day of another one; windows that touch share none.
    ("", [(calibration(29, 31), BAD), (calibration(30, 31), DONE)]),
    ("", [(calibration(5, 11), BAD), (calibration(5, 10), DONE)]),
    ("", [(calibration(30, 30), BAD), (calibration(31, 30), BAD), (calibration(-31, -30), DONE)]),
    ("", [(calibration(0, 40), BAD), (calibration(12, 13), BAD), (calibration(12, 13, sensor=8), DONE)]),
    ("", [(moved(10, 21), BAD), (moved(10, 20), DONE), (moved(9, 20), DONE)]),
    # A window without a first day or an end serves nobody, and 24 passes over it.
    ("", [(calibration(15, "null"), DONE), (moved(15, 16, 2), BAD), (moved(35, 36, 2), DONE)]),
    ("", [(calibration("null", 10), DONE), (moved(9, 21, 2), BAD), (reading(9), ORPHAN)]),
    ("", [(calibration(30, "null"), DONE), (reading(30), ORPHAN), (moved(30, 31, 2), DONE)]),
    ("", [(calibration(30, "null"), DONE), (calibration(31, 33, 3), DONE), (moved(30, 33, 2), BAD)]),
    # 16 and 17 come before 24, 24 before RESTRICT, and a deletion passes it.
    ("", [(calibration(5, 4, sensor="null"), NOT_NULL), (calibration(10, 5), TAKEN)]),
    (RESTRICT, [(moved(10, 10), BAD), (moved(10, 25), BAD), ("delete calibrations 0", HELD)]),
    # An end that moves away from a reading.
    ("", [(moved(10, 19), ORPHAN), ("delete readings 0", DONE), (moved(10, 19), DONE)]),
    ("", [(moved(10, "null"), ORPHAN), (moved("null", 20), ORPHAN), (moved(10, 20, sensor=8), ORPHAN)]),
    ("", [("delete calibrations 0", ORPHAN), ("delete readings 0", DONE), ("delete calibrations 0", DONE)]),
    # RESTRICT refuses a change only where a reading is no longer in the window.
    (RESTRICT, [(moved(10, 19), HELD), (moved(19, 20), DONE), (moved(18, 20), DONE)]),
    (RESTRICT, [(moved(10, "null"), HELD), (moved("null", 20), HELD), (moved(10, 20, sensor=8), HELD)]),
    (RESTRICT, [("delete readings 0", DONE), (moved(10, 11), DONE), (moved("null", "null"), DONE)]),
    ("on delete restrict", [(moved(10, 19), ORPHAN), ("delete calibrations 0", HELD)]),
    ("on update restrict", [(moved(10, 19), HELD), ("delete calibrations 0", ORPHAN)]),
    # 65 and 97 are "A" and "a": to the unique key the same first day, to the windows not.
    (RESTRICT, [(calibration(65, 98), DONE), (reading(66), DONE), (moved(97, 98, 2), HELD)]),
    ("", [(calibration(65, 66), DONE), (reading(97), ORPHAN), (calibration(97, 98, 3), TAKEN)]),
    # A border is moved past a reading in two steps: under a deferred key, but not under RESTRICT.
    (
        "deferred",
        [("begin", BEGUN), (moved(10, 19), (0, 1, 1)), (moved(19, 30, 1), (0, 1, -1)), ("commit", BEGUN)],
    ),
    (RESTRICT + " deferred", [("begin", BEGUN), (moved(10, 19), HELD), (moved(19, 30, 1), BAD)]),
    # Statements for many rows: 24 at each row, orphans after the last.
    ("", [("update calibrations set end=25 where sensor = 7", BAD)]),
    ("", [("update calibrations set end=31 where first = 20", DONE), (reading(30), DONE)]),
    ("", [("update readings set day=30 where sensor = 7", ORPHAN)]),
    ("", [("update readings set day=10 where sensor = 7", (0, 2, 0))]),
    ("", [("delete calibrations where sensor = 7", ORPHAN)]),
]
# Tables of a windowed key, and the answer to a reading: broken ones have no end column beside the key.
LAID_OUT = """\
table calibrations rows 4
{columns}  unique ({unique})
table readings rows 4
  column sensor
  column day
key readings.(sensor, day) -> calibrations.({parent}) windowed
journal 8
"""
LAYOUTS = [
    ("sensor first end", "sensor, first", "sensor, first", ORPHAN),
    ("sensor first", "sensor, first", "sensor, first", BROKEN),
    ("first sensor end", "first, sensor", "sensor, first", BROKEN),
    ("first end sensor", "first, sensor", "sensor, first", ORPHAN),
    ("sensor first end", "sensor, first, end", "sensor, first", BROKEN),
    ("sensor first end", "sensor, end", "sensor, end", BROKEN),
]


def answers_of(text):
    """The answers to the calls of a text."""
    return run_hoofrun(read_text(text).to_bytes())[0]


def check_answers(checks):
    """Answers that are written out above."""
    for clauses, steps in ANSWERS:
        calls, wanted = zip(*steps)
        found = answers_of(BOOK.format(clauses=clauses) + "\n".join(calls) + "\n")[ENTERED:]
        checks.check(f"windows, {clauses or 'no action'}: {calls}", found == list(wanted), found)


def check_broken(checks):
    """A windowed key without an end column beside it is broken; its windows are not judged."""
    for columns, unique, parent, answer in LAYOUTS:
        names = columns.split()
        lines = "".join(f"  column {name}\n" for name in names)
        entered = "insert calibrations 0 " + " ".join(f"{name}=5" for name in names)
        calls = f"insert readings 0 sensor=5 day=5\n{entered}\ndelete calibrations 0\n"
        text = LAID_OUT.format(columns=lines, unique=unique, parent=parent)
        wanted = [answer, DONE, BROKEN] if answer == BROKEN else [answer, BAD, (11, 0, 0)]
        found = answers_of(text + calls)
        checks.check(f"columns {columns}, key to {parent}", found == wanted, found)


# Parents and children in two tables or in one; the sensor's column is folded, the first day's at times.
TWO_TABLES = """\
table t0 rows 5
  column c0 folded
  column c1 {mark}
  column c2
  unique (c0, c1)
table t1 rows 5
  column c0
  column c1
key t1.(c0, c1) -> t0.(c0, c1) windowed {clauses}
journal 400
"""
ONE_TABLE = """\
table t0 rows 6
  column c0 folded
  column c1 {mark}
  column c2
  column c3
  column c4
  unique (c0, c1)
key t0.(c3, c4) -> t0.(c0, c1) windowed {clauses}
journal 400
"""
SENSORS = (0x41, 0x61, 0x42)  # A, a, B
DAYS = (-9, 0, 65, 66, 97, 98, 120)  # 65 and 97 are A and a: days are no names
NO_DAY = (None, *DAYS, *DAYS, *DAYS)


@dataclass
class Form:
    """A schema of the random books: its tables, the child's columns, and the key's clauses."""

    text: str
    rows: tuple
    columns: tuple
    child: int
    child_columns: tuple
    folded_day: bool
    full: bool
    on_delete: bool  # whether it is RESTRICT
    on_update: bool
    deferred: bool


def random_form(source):
    """One of the two texts with some clauses."""
    folded_day, full, on_delete, on_update, deferred = (source.random() < 0.5 for _ in range(5))
    words = ["match full"] * full + ["on delete restrict"] * on_delete
    words += ["on update restrict"] * on_update + ["deferred"] * deferred
    clauses = {"mark": "folded" * folded_day, "clauses": " ".join(words)}
    marks = folded_day, full, on_delete, on_update, deferred
    if source.random() < 0.5:
        return Form(TWO_TABLES.format(**clauses), (5, 5), (3, 2), 1, (0, 1), *marks)
    return Form(ONE_TABLE.format(**clauses), (6,), (5,), 0, (3, 4), *marks)


def random_value(source, form, table, column):
    """A sensor, a day or NULL."""
    is_sensor = column == 0 or (table == form.child and column == form.child_columns[0])
    return source.choice((None, *SENSORS * 6)) if is_sensor else source.choice(NO_DAY)


def random_call(source, model):
    """A row is entered, changed or deleted, or all those found by a value."""
    form, table = model.form, source.randrange(len(model.form.rows))
    row, columns = source.randrange(form.rows[table]), range(form.columns[table])
    is_live = row in model.tables[table]
    kind = source.choice((UPDATE, UPDATE, UPDATE, DELETE, None) if is_live else (INSERT,) * 9 + (DELETE,))
    values = [random_value(source, form, table, c) for c in columns]
    if kind is not None:
        return call_words(kind, table, row, [] if kind == DELETE else values)
    sought, given = source.choice(columns), source.choice(columns)
    value = random_value(source, form, table, sought) or SENSORS[0]
    return where_words(table, (sought, value), source.choice((None, (given, values[given]))))


def folded(value):
    """A value of one byte with 41 to 5A raised by 20."""
    return value + 0x20 if 0x41 <= value <= 0x5A else value


def serves(parent, child):
    """Whether a parent row's sensor and window have the child's sensor and day."""
    sensor, first, end = parent[:3]
    if None in (sensor, first, end, *child):
        return False
    return folded(sensor) == folded(child[0]) and first <= child[1] < end


class Refused(Exception):
    """A row change that is refused, by its code."""


class Model:
    """The rows of a form, changed by calls as the paper has it."""

    def __init__(self, form, in_transaction):
        self.form, self.in_transaction = form, in_transaction
        self.tables = [{} for _ in form.rows]  # of each table: row, and its values

    def child_key(self, values):
        """The sensor and the day of a child row."""
        return [values[c] for c in self.form.child_columns]

    def children(self):
        """The keys of all child rows, by row."""
        return [(row, self.child_key(values)) for row, values in sorted(self.tables[self.form.child].items())]

    def is_orphan(self, key):
        """Whether a child row with this key is an orphan."""
        if None in key:
            return self.form.full and key != [None, None]
        return not any(serves(parent, key) for parent in self.tables[0].values())

    def orphans(self):
        """The rows of all orphans."""
        return [(0, row) for row, key in self.children() if self.is_orphan(key)]

    def check_unique(self, row, values):
        """17: another row has the sensor and the first day."""
        day = folded if self.form.folded_day else int
        for other, others in self.tables[0].items():
            if other == row or None in (*values[:2], *others[:2]):
                continue
            if folded(values[0]) == folded(others[0]) and day(values[1]) == day(others[1]):
                raise Refused(17)

    def check_window(self, row, values):
        """24: the window is empty, or shares a day with another one of the sensor."""
        sensor, first, end = values[:3]
        if None in (sensor, first, end):
            return
        if end <= first:
            raise Refused(24)
        for other, (other_sensor, other_first, other_end, *_) in self.tables[0].items():
            if other == row or None in (other_sensor, other_first, other_end):
                continue
            if folded(sensor) == folded(other_sensor) and first < other_end and other_first < end:
                raise Refused(24)

    def check_restrict(self, old, new):
        """18: a child of the old row, which is deleted where new is None, is not one of the new row."""
        restricts = self.form.on_delete if new is None else self.form.on_update
        for _, key in self.children() if restricts else []:
            if serves(old, key) and not (new and serves(new, key)):
                raise Refused(18)

    def write(self, table, row, values):
        """One row change; a deleted row has no values."""
        if table == 0 and values is not None:
            self.check_unique(row, values)
            self.check_window(row, values)
        old = self.tables[table].pop(row, None)
        if values is not None:
            self.tables[table][row] = values
        if table == 0 and old is not None:
            self.check_restrict(old, values)

    def changes(self, kind, table, b, mask, *words):
        """The row changes of a call, each judged when the one before is done."""
        live = self.tables[table]
        if kind <= DELETE:
            if (b in live) == (kind == INSERT):
                raise Refused(11)
            values = [None if mask >> c & 1 else words[c] for c in range(self.form.columns[table])]
            yield b, None if kind == DELETE else values
            return
        for row in range(self.form.rows[table]):
            if row in live and live[row][b] is not None and self.is_met(table, b, live[row][b], words[0]):
                values = list(live[row])
                values[words[1]] = None if mask & 2 else words[2]
                yield row, None if kind == WHERE_KINDS["delete"] else values

    def is_met(self, table, column, value, sought):
        """Whether a column's value is the one sought, by the column's mark."""
        marked = table == 0 and (column == 0 or (column == 1 and self.form.folded_day))
        return folded(value) == folded(sought) if marked else value == sought

    def answer(self, words):
        """The code of a call, the rows changed and the net change in orphans; a refused one is put back."""
        before, orphans, changed = [dict(rows) for rows in self.tables], len(self.orphans()), 0
        try:
            for row, values in self.changes(*words):
                self.write(words[1], row, values)
                changed += 1
            left = len(self.orphans())
            if left and not (self.form.deferred and self.in_transaction):
                raise Refused(20)
            return 0, changed, left - orphans
        except Refused as refused:
            self.tables = before
            return refused.args[0], 0, 0


def check_random_books(checks):
    """Answers and the orphan list against the model; every refusal must have been met."""
    source, codes, listed = random.Random(2024), [], 0
    for number in range(RANDOM_BOOKS):
        form, in_transaction = random_form(source), source.random() < 0.7
        model = Model(form, in_transaction)
        calls, wanted = [], []
        for _ in range(CALLS):
            calls.append(random_call(source, model))
            wanted.append(model.answer(calls[-1]))
        data = read_text(form.text + "begin\n" * in_transaction).to_bytes()
        data += b"".join(CALL.pack(*words) for words in calls)
        found = run_hoofrun(data)[0][in_transaction:]
        differing = [(words, want, got) for words, want, got in zip(calls, wanted, found) if want != got]
        right = found == wanted
        checks.check(f"answers of random windowed book {number}", right, f"{form.text}{differing[:1]}")
        orphans = model.orphans()
        right = ask_orphans(data) == (0, orphans)
        checks.check(f"orphans of random windowed book {number}", right, orphans)
        codes += [code for code, _, _ in wanted]
        listed += len(orphans)
    met = {code: codes.count(code) for code in (0, 11, 17, 18, 20, 24)}
    checks.check("random windowed books with every refusal", min(*met.values(), listed) > 30, (met, listed))


def check_window_books(checks):
    """Every check of windowed keys in the engine."""
    for run in (check_answers, check_broken, check_random_books):
        run(checks)
