"""Tests of a foreign key's match: its clause, its byte, and which rows are orphans under it."""

import random

from booktext.calls import CALL, PLAIN_KINDS, ROW_KINDS, call_words
from booktext.orphans import ask_orphans
from booktext.reader import read_text
from booktext.runner import run_hoofrun
from booktext.writer import text_of

RANDOM_BOOKS = 40
CALLS = 40  # of a random book
RECORD, COUNT_AT, MATCH_AT = 16, -11, -2  # bytes 5 and 14 of the last record

# Names as decode gives them, so that a text comes back as it is.
TABLES = """\
table t0 rows 4
  column c0 not null
  column c1 not null
  unique (c0, c1)
  unique (c0)
table t1 rows 6
  column c0
  column c1
"""
KEY = "key t1.(c0, c1) -> t0.(c0, c1)"
KEY_OF_ONE = "key t1.c1 -> t0.c0"
JOURNAL = "\njournal 99\n"
# A clause as it is read, as it is written, and byte 14.
CLAUSES = [
    ("", "", 0),
    (" match simple", "", 0),
    (" match full", " match full", 1),
    (" match  full # or nothing", " match full", 1),
    (" match simple on delete cascade deferred", " on delete cascade deferred", 0),
    (" match full on delete no action deferred", " match full deferred", 1),
    (" match full on update set null", " match full on update set null", 1),
]
# Names are told by their places, so that none is reserved.
NAMES = """\
table match rows 4
  column full unique
  column simple
key match.simple -> match.full match full
key match.simple -> match.full
journal 8
"""
SIMPLE, FULL = 0, 1  # the keys of TWO_KEYS
TWO_KEYS = TABLES.replace("  unique (c0)\n", "") + f"{KEY} deferred\n{KEY} match full deferred{JOURNAL}"


def check_clauses(checks):
    """Clauses against byte 14, both ways."""
    for read, written, match in CLAUSES:
        data = read_text(TABLES + KEY + read + JOURNAL).to_bytes()
        checks.check(f"byte 14 of{read}", data[MATCH_AT] == match, data[-16:])
        found = text_of(data)
        checks.check(f"line of{read}", found == TABLES + KEY + written + JOURNAL, found)
    data = read_text(NAMES).to_bytes()
    matches = data[MATCH_AT - RECORD], data[MATCH_AT]
    checks.check("names that are words of the clause", matches == (1, 0), matches)


def check_bytes(checks):
    """The engine refuses a byte 14 by 1 exactly where no line says it."""
    keys = [read_text(TABLES + key + JOURNAL).to_bytes() for key in (KEY, KEY_OF_ONE)]
    values = (0, 1, 2, 3, 4, 16, 127, 128, 254, 255)
    for data, value in [(data, value) for data in keys for value in values]:
        changed = bytearray(data)
        changed[MATCH_AT] = value
        said = not text_of(changed).startswith("bytes ")
        answers = run_hoofrun(changed)[0]
        name = f"a key of {data[COUNT_AT]} columns with byte 14 = {value}"
        checks.check(f"{name} as text", said == (value < 2), said)
        checks.check(name, answers == ([] if said else [(1, 0, 0)]), answers)


def random_calls(source):
    """Rows of both tables of TWO_KEYS in an open transaction; a child's columns are NULL at times."""
    calls = [call_words(PLAIN_KINDS["begin"])]
    for _ in range(CALLS):
        table, verb = source.randrange(2), source.choice(("insert", "insert", "update", "delete"))
        values = ((1, 2), (None, 1, 2))[table]
        pair = [] if verb == "delete" else source.choices(values, k=2)
        calls.append(call_words(ROW_KINDS[verb], table, source.randrange((4, 6)[table]), pair))
    return calls


def rows_after(calls, answers):
    """The pairs of both tables, by row, after the calls that were accepted; no key has an action."""
    tables = {}, {}
    for (kind, table, row, mask, *values), (code, _, _) in zip(calls, answers):
        if code == 0 and kind == ROW_KINDS["delete"]:
            tables[table].pop(row, None)
        elif code == 0 and kind in ROW_KINDS.values():
            tables[table][row] = [None if mask >> c & 1 else values[c] for c in range(2)]
    return tables


def is_orphan(key, pair, parents):
    """Whether a child row with this pair is an orphan of a key of TWO_KEYS."""
    empty = pair.count(None)
    if empty == 0:
        return pair not in parents.values()
    return empty == 1 and key == FULL


def check_random_books(checks):
    """The list, and the nets added up, against the rows that the accepted calls leave."""
    source, half_filled, empty = random.Random(2024), 0, 0
    schema = read_text(TWO_KEYS).to_bytes()
    for number in range(RANDOM_BOOKS):
        calls = random_calls(source)
        data = schema + b"".join(CALL.pack(*words) for words in calls)
        answers = run_hoofrun(data)[0]
        parents, children = rows_after(calls, answers)
        rows = [(key, row) for key in (SIMPLE, FULL) for row in sorted(children)]
        orphans = [(key, row) for key, row in rows if is_orphan(key, children[row], parents)]
        right = ask_orphans(data) == (0, orphans) and sum(net for _, _, net in answers) == len(orphans)
        checks.check(f"orphans of both matches in random book {number}", right, orphans)
        half_filled += sum(pair.count(None) == 1 for pair in children.values())
        empty += sum(pair.count(None) == 2 for pair in children.values())
    checks.check("random books with half-filled and empty pairs", min(half_filled, empty) > 9, empty)


def check_matches(checks):
    """Every check of the match."""
    for run in (check_clauses, check_bytes, check_random_books):
        run(checks)
