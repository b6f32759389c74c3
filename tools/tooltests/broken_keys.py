"""Tests of broken keys: which row changes they refuse by 23, and that they have no orphans."""

import random

from booktext.calls import CALL, ROW_KINDS, call_words
from booktext.orphans import ask_orphans
from booktext.reader import read_text
from booktext.runner import run_hoofrun

RANDOM_BOOKS = 60
CALLS = 30  # of a random book
INSERT, UPDATE, DELETE = (ROW_KINDS[verb] for verb in ("insert", "update", "delete"))

# The key of the trims is finished, the key of the readings is broken.
BOOK = """\
table horses rows 4
  column number not null unique
table trims rows 4
  column number not null unique
  column horse
  column note
table readings rows 4
  column number not null unique
  column value
key trims.horse -> horses.number on delete cascade on update set null
key {broken}
journal {journal}
insert horses 0 number=5
insert horses 1 number=6
insert trims 0 number=11 horse=5 note=null
"""
ENTERED = 3  # calls of BOOK
SECOND_TRIM = "insert trims 1 number=12 horse=5 note=5"
RESTRICT = "key trims.horse -> horses.number on delete restrict"
NO_TABLE = "readings.value -> ?sensors.?number deferred"
NO_COLUMN = "readings.value -> trims.?chip on delete cascade deferred"
NO_UNIQUE = "readings.value -> trims.note on delete set null"
WIDER = "readings.(number, value) -> trims.(number, note)"
OWN = "trims.note -> trims.horse on delete restrict on update restrict"

# A broken key, calls after those of BOOK, and their codes.
USES = [
    (NO_TABLE, "insert readings 0 number=1 value=null\nupdate readings 0 number=1 value=1", (23, 11)),
    (NO_TABLE, "delete readings 0\ndelete readings where value = null", (11, 0)),
    (NO_TABLE, "update trims 0 number=12 horse=6 note=1\ndelete horses 0\ndelete horses 1", (0, 0, 0)),
    (NO_COLUMN, f"insert readings 0 number=1 value=5\n{SECOND_TRIM}", (23, 0)),
    (NO_COLUMN, "update trims 0 number=11 horse=5 note=null\ndelete trims 0", (23, 23)),
    (NO_COLUMN, "delete horses 0\nupdate horses 0 number=7\nupdate horses 0 number=5", (23, 23, 0)),
    (NO_UNIQUE, f"delete horses 1\ndelete horses 0\n{SECOND_TRIM}", (0, 23, 0)),
    (NO_UNIQUE, "delete trims where horse = 6\ndelete trims where horse = 5", (0, 23)),
    (NO_UNIQUE, "update trims set note=1 where horse = 6", (0,)),
    (NO_UNIQUE, "update trims set note=1 where horse = 5", (23,)),
    (WIDER, "insert readings 0 number=1 value=1\ndelete trims 0", (23, 23)),
    (OWN, "delete trims 0\ninsert trims 0 number=12 horse=null note=null", (11, 23)),
    # A deferred key postpones nothing, a refused statement leaves nothing, and commit finds nothing.
    (NO_COLUMN, "begin\ndelete horses 0\ninsert horses 0 number=9\ncommit", (0, 23, 11, 0)),
    # 4 and 11 come before 23, 16 and 17 after it.
    (NO_TABLE, "insert readings 4 number=1 value=1", (4,)),
    (NO_UNIQUE, "update trims 1 number=null horse=null note=null", (11,)),
    (NO_TABLE, "insert readings 0 number=null value=null", (23,)),
    (NO_UNIQUE, f"{SECOND_TRIM}\nupdate trims set number=11 where number = 12", (0, 23)),
]


def codes_of(text):
    """The codes of the calls of a text."""
    return tuple(code for code, _, _ in run_hoofrun(read_text(text).to_bytes())[0])


def book_text(broken, calls, journal=8):
    """BOOK with a broken key and more calls."""
    return BOOK.format(broken=broken, journal=journal) + calls + "\n"


def foals(count):
    """A line of so many horses, the last with a trim that a broken key holds; the first is deleted."""
    lines = ["table horses rows 16", "  column number unique", "  column dam"]
    lines += ["table trims rows 1", "  column horse", "table readings rows 1", "  column trim"]
    lines += ["key horses.dam -> horses.number on delete cascade"]
    lines += ["key trims.horse -> horses.number on delete cascade", "key readings.trim -> trims.horse"]
    lines += ["journal 32", "insert horses 0 number=1 dam=null"]
    lines += [f"insert horses {row} number={row + 1} dam={row}" for row in range(1, count)]
    return "\n".join(lines + [f"insert trims 0 horse={count}", "delete horses 0"]) + "\n"


def check_uses(checks):
    """Codes that are written out above."""
    for broken, calls, codes in USES:
        found = codes_of(book_text(broken, calls))[ENTERED:]
        checks.check(f"codes of {calls!r} under {broken}", found == codes, found)


def check_order(checks):
    """Depth, the journal and an earlier RESTRICT come before a broken key."""
    full = "begin\ndelete horses 0\ninsert horses 2 number=7\ndelete trims 0"
    cascade = book_text(NO_UNIQUE, "delete horses 0")
    for name, text, codes in (
        ("RESTRICT before CASCADE", cascade.replace("key", RESTRICT + "\nkey", 1), (18,)),
        ("RESTRICT after CASCADE", cascade.replace("journal", RESTRICT + "\njournal"), (23,)),
        ("a full journal", book_text(NO_UNIQUE, full, journal=1), (0, 15, 0, 15)),
        ("a journal with room", book_text(NO_UNIQUE, full, journal=2), (0, 23, 0, 23)),
        ("depth 17", foals(16), (0, 14)),
        ("depth 16", foals(15), (0, 23)),
    ):
        found = codes_of(text)[-len(codes):]
        checks.check(f"broken key and {name}", found == codes, found)


# Parents of the random keys: columns in any order that are exactly those of a unique key, and others.
RANDOM_TABLES = """\
table t0 rows 4
  column c0 unique
  column c1
table t1 rows 4
  column c0
  column c1
  unique (c0, c1)
table t2 rows 4
  column c0
  column c1
"""
FINISHED = {"t0.c0": (0, [0]), "t1.(c0, c1)": (1, [0, 1]), "t1.(c1, c0)": (1, [1, 0])}
BROKEN = {
    "t0.c1": 0, "t0.?2": 0, "t0.(c0, c1)": 0, "t1.c0": 1, "t1.(c0, ?7)": 1, "t2.c0": 2, "t2.(c1, c0)": 2,
    "?3.?0": 3, "?9.(?3, ?4)": 9, "?255.?255": 255,
}


def random_keys(source):
    """Two or three keys, each a child table and a parent, about half of them broken."""
    return [
        (source.randrange(3), source.choice(list(source.choice((FINISHED, BROKEN)))))
        for _ in range(source.randint(2, 3))
    ]


def random_schema(keys):
    """The schema with these keys, deferred and without actions, and an open transaction."""
    text = RANDOM_TABLES
    for child, end in keys:
        columns = "(c0, c1)" if "," in end else "c1"
        text += f"key t{child}.{columns} -> {end} deferred\n"
    return read_text(text + "journal 99\nbegin\n").to_bytes()


def random_calls(source):
    """Inserts, updates and deletes of rows of the three tables."""
    calls = []
    for _ in range(CALLS):
        kind = source.choice((INSERT, INSERT, UPDATE, DELETE))
        values = [] if kind == DELETE else source.choices((None, 1, 2, 3), k=2)
        calls.append(call_words(kind, source.randrange(3), source.randrange(4), values))
    return calls


def used_by(kind, table, keys):
    """The broken parents that a change of a row of the table uses."""
    broken = [(child, end) for child, end in keys if end in BROKEN]
    by_child = {end for child, end in broken if child == table and kind != DELETE}
    return by_child | {end for _, end in broken if BROKEN[end] == table and kind != INSERT}


def follow(keys, calls, codes):
    """The rows that accepted calls leave, and of each call its code and the broken parents it uses."""
    tables, uses = [{}, {}, {}], []
    for (kind, table, row, mask, *values), code in zip(calls, codes):
        rows = tables[table]
        runs = (row in rows) == (kind != INSERT)
        uses.append((code, used_by(kind, table, keys) if runs else set()))
        if code == 0:
            rows.pop(row, None)
        if code == 0 and kind != DELETE:
            rows[row] = [None if mask >> c & 1 else values[c] for c in range(2)]
    return tables, uses


def orphans_of(keys, tables):
    """The orphans of the finished keys, counted from the rows."""
    orphans = []
    for number, (child, end) in enumerate(keys):
        parent, columns = FINISHED.get(end, (0, []))
        parents = [[row[c] for c in columns] for row in tables[parent].values()]
        for place, row in sorted(tables[child].items()):
            key = row[2 - len(columns) :]
            if columns and None not in key and key not in parents:
                orphans.append((number, place))
    return orphans


def check_random_books(checks):
    """23 exactly where a broken key is used; orphans of finished keys alone; every broken parent met."""
    source, met, accepted, listed = random.Random(2024), set(), 0, 0
    for number in range(RANDOM_BOOKS):
        keys, calls = random_keys(source), random_calls(source)
        data = random_schema(keys) + b"".join(CALL.pack(*words) for words in calls)
        answers = run_hoofrun(data)[0]
        tables, uses = follow(keys, calls, [code for code, _, _ in answers[1:]])
        right = len(uses) == CALLS and all((code == 23) == bool(used) for code, used in uses)
        checks.check(f"codes of random half-drawn book {number}", right, uses)
        orphans = orphans_of(keys, tables)
        right = ask_orphans(data) == (0, orphans) and sum(net for _, _, net in answers) == len(orphans)
        checks.check(f"orphans of random half-drawn book {number}", right, orphans)
        met = met.union(*(used for _, used in uses))
        accepted += sum(code == 0 for code, _ in uses)
        listed += len(orphans)
    checks.check("every broken parent is used", met == set(BROKEN), met)
    enough = accepted > 5 * RANDOM_BOOKS and listed > RANDOM_BOOKS // 2
    checks.check("half-drawn books with rows and orphans", enough, (accepted, listed))


def check_broken_keys(checks):
    """Every check of broken keys."""
    for run in (check_uses, check_order, check_random_books):
        run(checks)
