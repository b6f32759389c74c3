"""Tests of windowed keys in the text: their clause, their byte, and which of them are broken."""

from booktext.reader import read_text
from booktext.runner import run_hoofrun
from booktext.writer import text_of

RECORD, DELETE_AT, UPDATE_AT, WINDOWED_AT = 16, 3, 4, 15  # of a foreign key record
ACTIONS = range(6)  # the last is none

# Names as decode gives them, so that a text comes back as it is.
TABLES = """\
table t0 rows 4
  column c0
  column c1
  column c2
  column c3
  column c4
  unique (c0, c1)
table t1 rows 4
  column c0
  column c1
  column c2
  column c3
"""
KEY = "key t1.(c0, c1) -> t0.(c0, c1)"
JOURNAL = "\njournal 8\n"
# A clause as it is read, as it is written, and byte 15.
CLAUSES = [
    ("", "", 0),
    (" windowed", " windowed", 1),
    ("  windowed # by its day", " windowed", 1),
    (" windowed match simple", " windowed", 1),
    (" windowed match full", " windowed match full", 1),
    (" windowed on delete no action on update restrict", " windowed on update restrict", 1),
    (" windowed on delete restrict deferred", " windowed on delete restrict deferred", 1),
    (" match full deferred", " match full deferred", 0),
]
# Keys whose end column is there, is missing, is in the key or is not drawn: each has a line.
ENDS = [
    "t1.(c0, c1) -> t0.(c0, c1)",
    "t1.(c0, c1, c2, c3) -> t0.(c3, c2, c1, c0)",
    "t1.(c1, c0) -> t0.(c1, c0)",
    "t1.(c0, c1) -> t0.(c0, c4)",
    "t1.(c0, c1) -> t0.(c0, ?5)",
    "t1.(c0, c1) -> ?2.(?0, ?255)",
]
# Names are told by their places, so that none is reserved.
NAMES = """\
table windowed rows 4
  column windowed
  column first
  column end
key windowed.(windowed, first) -> windowed.(windowed, first) windowed
key windowed.(first, windowed) -> windowed.(first, windowed)
journal 8
"""


def check_clauses(checks):
    """Clauses against byte 15, both ways."""
    for read, written, windowed in CLAUSES:
        data = read_text(TABLES + KEY + read + JOURNAL).to_bytes()
        checks.check(f"byte 15 of{read}", data[WINDOWED_AT - RECORD] == windowed, data[-RECORD:])
        found = text_of(data)
        checks.check(f"line of{read}", found == TABLES + KEY + written + JOURNAL, found)
    for ends in ENDS:
        text = f"{TABLES}key {ends} windowed{JOURNAL}"
        found = text_of(read_text(text).to_bytes())
        checks.check(f"line of {ends}", found == text, found)
    data = read_text(NAMES).to_bytes()
    bytes_15 = data[WINDOWED_AT - 2 * RECORD], data[WINDOWED_AT - RECORD]
    checks.check("names that are the word of the clause", bytes_15 == (1, 0), bytes_15)


def check_record(checks, name, data, said):
    """The engine accepts a schema where a line says it, and else refuses it by 1."""
    text, answers = text_of(data), run_hoofrun(data)[0]
    checks.check(f"{name} as text", text.startswith("table ") == said, text)
    checks.check(name, answers == ([] if said else [(1, 0, 0)]), answers)


def check_bytes(checks):
    """Byte 15 beside the number of columns, and beside both actions."""
    keys = ["t1.c0 -> t0.c0", "t1.(c0, c1, c2) -> t0.(c4, c0, c1)"] + ENDS
    for ends, value in [(ends, value) for ends in keys for value in (0, 1, 2, 3, 16, 128, 255)]:
        data = bytearray(read_text(f"{TABLES}key {ends}{JOURNAL}").to_bytes())
        data[WINDOWED_AT - RECORD] = value
        said = value == 0 or (value == 1 and ends != keys[0])
        check_record(checks, f"the key {ends} with byte 15 = {value}", data, said)
    data = bytearray(read_text(TABLES + KEY + " windowed" + JOURNAL).to_bytes())
    for on_delete, on_update in [(first, second) for first in ACTIONS for second in ACTIONS]:
        data[DELETE_AT - RECORD], data[UPDATE_AT - RECORD] = on_delete, on_update
        name = f"a windowed key with actions {on_delete} and {on_update}"
        check_record(checks, name, data, max(on_delete, on_update) < 2)


def check_windows(checks):
    """Every check of windowed keys in the text."""
    for run in (check_clauses, check_bytes):
        run(checks)
