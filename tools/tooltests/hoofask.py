"""Tests of hoofask: what it prints about bytes."""

import random
import subprocess
from pathlib import Path

from booktext.calls import CALL, call_words, where_words
from booktext.orphans import ask_orphans
from booktext.programs import HOOFASK
from booktext.reader import read_text
from booktext.runner import run_hoofrun

BUILD = Path(__file__).resolve().parents[1] / "build.sh"
RANDOM_BOOKS = 60
FEW_VALUES = (None, 1, 2, 3, 4, 5, 6)  # so that keys meet

TIED = """\
table horses rows 2
  column number not null unique
table trims rows 4
  column number not null unique
  column horse
table readings rows 4
  column number not null unique
  column horse
  column trim
key trims.horse -> horses.number deferred
key readings.horse -> horses.number deferred
key readings.trim -> trims.number deferred
journal 8
"""
UNSORTED = """\
begin
insert readings 0 number=21 horse=5 trim=99
insert trims 3 number=11 horse=5
insert trims 1 number=12 horse=6
"""
EVERY_ROW = "begin\n" + "".join(
    f"insert trims {row} number={row} horse=5\ninsert readings {row} number={row} horse=5 trim=99\n"
    for row in (2, 0, 3, 1)
)
WIDE_VALUES = """\
begin
insert horses 0 number=1
insert horses 1 number=9223372036854775807
insert trims 0 number=11 horse=9223372036854775807
insert trims 1 number=12 horse=-1                 # the same bits but for the sign
insert trims 2 number=13 horse=72057594037927937  # 1 in the lowest byte and in the highest
"""
EVERY_ORPHAN = "".join(f"{key},{row}\n" for key in range(3) for row in range(4))
LARGE = TIED.replace("rows 4", "rows 1024").replace("journal 8", "journal 4096")
MALFORMED = TIED.replace("journal 8", "journal 0")
BROKEN = TIED.replace("> trims.number", "> trims.horse")  # key 2

BOOKS = [
    ("orphans of three keys", TIED + UNSORTED, "0,4\n0,1\n0,3\n1,0\n2,0\n"),
    ("every row an orphan of every key", TIED + EVERY_ROW, "0,12\n" + EVERY_ORPHAN),
    ("values of eight bytes", TIED + WIDE_VALUES, "0,2\n0,1\n0,2\n"),
    ("orphans rolled back", TIED + UNSORTED + "rollback\n", "0,0\n"),
    ("no call", TIED, "0,0\n"),
    ("no foreign key", "table horses rows 4\n  column number\njournal 8\n", "0,0\n"),
    ("over 8,192 words", LARGE + "begin\ninsert trims 1023 number=1 horse=5\n", "0,1\n0,1023\n"),
    ("a schema refused by 1", MALFORMED + UNSORTED, "1,0\n"),
    ("a broken key", BROKEN + UNSORTED, "0,2\n0,1\n0,3\n"),
    ("a key to no table", TIED.replace("> trims.number", "> ?vets.?name") + UNSORTED, "0,2\n0,1\n0,3\n"),
]


def check_build(checks):
    """hoofask is built without a warning."""
    done = subprocess.run([BUILD], capture_output=True, text=True, check=False)
    built = (done.returncode, done.stdout, done.stderr) == (0, "", "")
    checks.check("hoofask is built", built, done.stderr)


def hoofask(*arguments, **streams):
    """Runs hoofask: status, standard output, standard error."""
    streams = {"stdout": subprocess.PIPE, **streams}
    done = subprocess.run(
        [HOOFASK.path(), *arguments], stderr=subprocess.PIPE, check=False, **streams
    )
    return done.returncode, done.stdout, done.stderr.decode()


def check_books(checks):
    """What is printed about books that are written out above, and about parts of a schema."""
    for name, text, printed in BOOKS:
        found = hoofask("orphans", input=read_text(text).to_bytes())
        checks.check(f"hoofask: {name}", found == (0, printed.encode(), ""), found)
    schema = read_text(TIED).to_bytes()
    short_field = schema[:14] + b"\x0f\x00" + schema[16:]
    for data in (b"", schema[:15], schema[:16], schema[:-1], short_field):
        found = hoofask("orphans", input=data)
        checks.check(f"hoofask: {len(data)} bytes of a schema", found == (0, b"1,0\n", ""), found)


def check_short_calls(checks):
    """A last call that is cut short changes nothing, even if the bytes cut off are zeros."""
    data = read_text(TIED + UNSORTED).to_bytes()
    rollback = CALL.pack(*call_words(8))
    listed = hoofask("orphans", input=data)[1]
    for length in (1, 8, 12, 88, 95):
        found = hoofask("orphans", input=data + rollback[:length])[1]
        checks.check(f"hoofask: a call of {length} bytes", found == listed != b"0,0\n", found)
    found = hoofask("orphans", input=data + rollback)[1]
    checks.check("hoofask: a whole call", found == b"0,0\n", found)


def row_change(source):
    """An insert, update or delete of a row in a table of TIED."""
    kind, table, row = source.choice((1, 1, 1, 2, 3)), source.randrange(3), source.randrange(4)
    columns = 0 if kind == 3 else 1 + table
    return call_words(kind, table, row, source.choices(FEW_VALUES, k=columns))


def many_rows_change(source):
    """A delete or update of every row found in a table of TIED."""
    table = source.randrange(3)
    sought, given = ((source.randrange(1 + table), source.choice(FEW_VALUES)) for _ in range(2))
    return where_words(table, sought, source.choice((None, given, given)))


def random_calls(source):
    """Up to 40 calls, a third of them for many rows."""
    changes = (row_change, row_change, many_rows_change)
    return b"".join(CALL.pack(*source.choice(changes)(source)) for _ in range(source.randint(0, 40)))


def check_random_books(checks):
    """Lists rise by foreign key, then by row, with as many orphans as the nets add up to."""
    source, lengths, changed = random.Random(2024), [], []
    book = read_text(TIED.replace("journal 8", "journal 99") + EVERY_ROW).to_bytes()
    for number in range(RANDOM_BOOKS):
        data = book + random_calls(source)
        code, orphans = ask_orphans(data)
        answers = run_hoofrun(data)[0]
        net = sum(answer[2] for answer in answers)
        right = code == 0 and orphans == sorted(set(orphans)) and len(orphans) == net
        checks.check(f"hoofask: random book {number}", right, orphans)
        lengths.append(len(orphans))
        changed += [answer[1] for answer in answers]
    varied = min(lengths) < 4 and max(lengths) > 8
    checks.check("hoofask: random books with few and with many orphans", varied, lengths)
    several = sum(rows > 1 for rows in changed)
    checks.check("hoofask: random calls that change several rows", several > 9, several)


def check_faults(checks):
    """A wrong usage has status 2; streams that fail have status 1."""
    for arguments in ((), ("orphan",), ("orphans", "a"), ("bound", "3")):
        status, out, err = hoofask(*arguments, input=b"")
        used = (status, out) == (2, b"") and err.startswith("usage: hoofask QUESTION <INPUT\n")
        named = all(f"\n  {question} " in err for question in ("orphans", "bound"))
        checks.check(f"hoofask: usage after {arguments}", used and named, err)
    with open("/dev/full", "wb") as full:
        status, _, err = hoofask("orphans", input=b"", stdout=full)
    told = (status, err) == (1, "hoofask: the answer cannot be written\n")
    checks.check("hoofask: full output", told, err)
    with open("/dev/null", "wb") as not_read:
        found = hoofask("orphans", stdin=not_read)
    told = found == (1, b"", "hoofask: the input cannot be read\n")
    checks.check("hoofask: unreadable input", told, found)


def check_hoofask(checks):
    """Every check of hoofask but its build."""
    for run in (check_books, check_short_calls, check_random_books, check_faults):
        run(checks)
