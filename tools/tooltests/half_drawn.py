"""Tests of keys to tables and columns that are not drawn: their lines and their bytes."""

import random

from booktext.reader import read_text
from booktext.runner import run_hoofrun
from booktext.writer import text_of

from .inputs import may_be_windowed

RANDOM_RECORDS = 300
RECORD, PARENT_AT, COLUMN_AT = 16, 1, 10  # of a foreign key record
BYTES = (*range(10), 16, 17, 127, 128, 254, 255)

# Names as decode gives them, so that a text comes back as it is.
TABLES = """\
table t0 rows 4
  column c0 not null unique
  column c1
table t1 rows 4
  column c0
  column c1
"""
JOURNAL = "journal 99\n"
# The parent of t1.c0 as it is read and as it is written, its table and its column.
PARENTS = [
    ("t0.c0", "t0.c0", 0, 0),
    ("t0.c1", "t0.c1", 0, 1),
    ("?sensors.?number", "?2.?0", 2, 0),
    ("? sensors . ? number # not drawn", "?2.?0", 2, 0),
    ("?2.?0", "?2.?0", 2, 0),
    ("?200.?255", "?200.?255", 200, 255),
    ("?255.?name", "?255.?0", 255, 0),
    ("?c0.?t0", "?2.?0", 2, 0),
    ("?_.?007", "?2.?7", 2, 7),
    ("t0.?chip", "t0.?2", 0, 2),
    ("t0.?2", "t0.?2", 0, 2),
    ("t0.?255", "t0.?255", 0, 255),
    ("t0.?t0", "t0.?2", 0, 2),
]
# Names get the next numbers of their table; the same name has the same number, and ?NUMBER takes none.
SEVERAL = [
    ("t1.c0 -> ?sensors.?number", "t1.c0 -> ?2.?0"),
    ("t1.c0 -> ?vets.?name", "t1.c0 -> ?3.?0"),
    ("t1.c0 -> ?2.?2", "t1.c0 -> ?2.?2"),
    ("t1.(c0, c1) -> ?sensors.(?hoof, ?number)", "t1.(c0, c1) -> ?2.(?1, ?0)"),
    ("t1.(c1, c0) -> t0.(?chip, c0)", "t1.(c1, c0) -> t0.(?2, c0)"),
    ("t1.(c1, c0) -> t0.(?brand, ?chip)", "t1.(c1, c0) -> t0.(?3, ?2)"),
    ("t1.c1 -> ?2.?name", "t1.c1 -> ?2.?2"),
    ("t1.c1 -> t1.?chip", "t1.c1 -> t1.?2"),
    ("t1.c1 -> ?16.?number", "t1.c1 -> ?16.?0"),
    ("t1.c1 -> ?number.?sensors", "t1.c1 -> ?4.?0"),
    ("t1.c1 -> ?match.?full match full", "t1.c1 -> ?5.?0 match full"),
    ("t1.c1 -> ?deferred.?deferred deferred", "t1.c1 -> ?6.?0 deferred"),
]


def key_lines(ends):
    """The lines of keys."""
    return "".join(f"key {line}\n" for line in ends)


def check_parents(checks):
    """Parents against the bytes of their record, both ways."""
    for read, written, table, column in PARENTS:
        data = read_text(TABLES + f"key t1.c0 -> {read}\n" + JOURNAL).to_bytes()
        record = bytes([1, table, 0, 0, 0, 1, 0, 255, 255, 255, column, 255, 255, 255, 0, 0])
        checks.check(f"record of {read}", data[-RECORD:] == record, data[-RECORD:])
        found = text_of(data)
        checks.check(f"line of {read}", found == TABLES + f"key t1.c0 -> {written}\n" + JOURNAL, found)
    read, written = (TABLES + key_lines(ends) + JOURNAL for ends in zip(*SEVERAL))
    found = text_of(read_text(read).to_bytes())
    checks.check("lines of several keys", found == written, found)


def random_record(source):
    """A record from t1 to any table and columns, some of them twice."""
    count = source.randint(1, 2)
    numbers = [source.choice((0, 1, 2, 3, 255, source.randrange(256))) for _ in range(count + 1)]
    head = [1, numbers[0], source.randrange(2), source.randrange(5), source.randrange(5), count]
    child_columns, rest = source.sample((0, 1), count), [255] * (4 - count)
    marks = [source.randrange(2), may_be_windowed(head) and source.randrange(2)]
    return bytes(head + child_columns + rest + numbers[1:] + rest + marks)


def check_random_records(checks):
    """Every parent has a line, which gives its bytes again."""
    source = random.Random(2024)
    data = read_text(TABLES + "key t1.c0 -> t0.c0\n" + JOURNAL).to_bytes()
    for number in range(RANDOM_RECORDS):
        changed = data[:-RECORD] + random_record(source)
        text = text_of(changed)
        right = text.startswith(TABLES + "key ") and read_text(text).to_bytes() == changed
        checks.check(f"line of random record {number}", right, changed[-RECORD:])


def accepts(data):
    """Whether the engine accepts a schema, and else refuses it by 1."""
    answers = run_hoofrun(data)[0]
    return {(): True, ((1, 0, 0),): False}.get(tuple(answers))


def check_bytes(checks):
    """The engine accepts any parent but a doubled column, and whatever it accepts has lines."""
    data = read_text(TABLES + "key t1.(c0, c1) -> ?2.(?0, ?1)\n" + JOURNAL).to_bytes()
    for at, value in [(at, value) for at in (PARENT_AT, COLUMN_AT) for value in range(256)]:
        changed = bytearray(data)
        changed[at - RECORD] = value
        doubled = at == COLUMN_AT and value == data[COLUMN_AT + 1 - RECORD]
        right = accepts(changed) == (not doubled) and text_of(changed).startswith(TABLES)
        checks.check(f"a record with byte {at} = {value}", right, changed[-RECORD:])
    for at, value in [(at, value) for at in range(RECORD) for value in BYTES]:
        changed = bytearray(data)
        changed[at - RECORD] = value
        accepted, said = accepts(changed), text_of(changed).startswith(TABLES)
        right = said if accepted else accepted is not None
        checks.check(f"a record with byte {at} = {value} that is accepted has lines", right, accepted)


def check_half_drawn(checks):
    """Every check of keys to what is not drawn."""
    for run in (check_parents, check_random_records, check_bytes):
        run(checks)
