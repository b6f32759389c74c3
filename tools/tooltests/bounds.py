"""Tests of the question how much one delete can touch: its line, its answers, and what they bound."""

import random

from booktext.calls import CALL, call_words, where_words
from booktext.questions import ask_number
from booktext.reader import read_text
from booktext.refusals import REFUSALS
from booktext.runner import run_hoofrun, run_text
from booktext.writer import text_of

from .checks import tool, tool_with_hoofask
from .hoofask import LARGE, MALFORMED, hoofask

RANDOM_BOOKS = 40
FEW_VALUES = (None, 0, 1, 2)  # so that keys meet

TABLES = """\
table horses rows 2
  column number not null unique
  column yard
  unique (number, yard)
table readings rows 4
  column number not null unique
  column horse default 5
  column yard
  column note
"""
JOURNAL = "journal 8\n"
# Three rows. The second reading is half-filled.
ROWS = """\
insert horses 0 number=5 yard=1
insert readings 0 number=21 horse=5 yard=1 note=5
insert readings 3 number=22 horse=null yard=1 note=null
"""
BY_HORSE = "key readings.horse -> horses.number"
BY_NOTE = "key readings.note -> horses.number"
BY_BOTH = "key readings.(horse, yard) -> horses.(number, yard)"
SET_NULL = " on delete set null\n"

# Foreign keys, and the sum over the rows.
SUMS = [
    ("no key", "", 3),
    ("a key with SET NULL", BY_HORSE + SET_NULL, 4),
    ("the same key twice", (BY_HORSE + SET_NULL) * 2, 4),
    ("two keys with SET NULL", BY_HORSE + SET_NULL + BY_NOTE + SET_NULL, 5),
    ("a key of two columns", BY_BOTH + SET_NULL, 6),
    ("two keys with a column in common", BY_BOTH + SET_NULL + BY_HORSE + SET_NULL, 6),
    ("three columns", BY_NOTE + SET_NULL + BY_BOTH + SET_NULL, 7),
    ("a key of another table", "key horses.number -> horses.number" + SET_NULL, 4),
    ("a folded column", BY_NOTE + SET_NULL, 4),
    ("SET NULL on update", BY_HORSE + " on update set null\n", 3),
    ("SET NULL beside CASCADE", BY_HORSE + " on delete cascade\n" + BY_HORSE + SET_NULL, 4),
] + [
    (action, f"{BY_HORSE} on delete {action} on update set null\n", 3)
    for action in ("no action", "restrict", "set default", "cascade")
]

BOUNDED = TABLES + BY_BOTH + SET_NULL + BY_NOTE + SET_NULL + JOURNAL
BOOKS = [
    ("no call", BOUNDED, "0,0\n"),
    ("a refused call", BOUNDED + ROWS + "insert horses 0 number=6 yard=6\n", "0,7\n"),
    ("a row deleted", BOUNDED + ROWS + "delete readings 3\n", "0,5\n"),
    ("rows cleared", BOUNDED + ROWS + "delete horses 0\n", "0,3\n"),
    ("rows of an open transaction", BOUNDED + "begin\n" + ROWS, "0,7\n"),
    ("rows rolled back", BOUNDED + "begin\n" + ROWS + "rollback\n", "0,0\n"),
    ("rows rolled back to a level", BOUNDED + "begin\nsavepoint\n" + ROWS + "rollback to 2\n", "0,0\n"),
    ("over 8,192 words", LARGE + "begin\ninsert trims 1023 number=1 horse=5\n", "0,1\n"),
    ("a broken key", BOUNDED.replace("> horses.number", "> ?vets.?name") + ROWS, "0,1\n"),
    ("a schema refused by 1", MALFORMED + "begin\n", "1,0\n"),
]

# The line as it may be written; a carriage return and a comment are no words.
LINES = ["bound", "  bound  ", "\tbound", "bound # how much", "bound\r"]
# Names are told by their places, so that none is reserved.
NAMES = """\
table bound rows 2
  column bound not null unique
journal 8
bound
insert bound 0 bound=5
bound
delete bound where bound = 5
bound
"""
SHOWN = """\
                                                         code  rows   net
bound                                                       0     0
begin                                                       0     0     0
insert horses 0 number=5 yard=1                             0     1     0
  bound  # a horse                                          0     1
insert readings 0 number=21 horse=5 yard=1 note=5           0     1     0
insert readings 0 number=21 horse=5 yard=1 note=5          11     0     0  """ + REFUSALS[11] + """
bound                                                       0     5
bound                                                       0     5
insert readings 3 number=22 horse=null yard=1 note=null     0     1     0

# Above the rollback and below it.
bound                                                       0     7
rollback                                                    0     3     0
bound                                                       0     0
bytes 08                                                    4     0     0  call malformed
accepted 5, refused 2, rows 6
"""


def asked_text(shown):
    """The lines of a text without its answers."""
    width = len(shown.split("code")[0]) - 2
    return "".join(line[:width].rstrip() + "\n" for line in shown.splitlines()[1:-1])


def check_lines(checks):
    """The line in its forms and at each place: the bytes are those without it."""
    calls = ROWS.splitlines()
    data = read_text(BOUNDED + ROWS).to_bytes()
    for line, above in [(line, above) for line in LINES for above in range(len(calls) + 1)]:
        lines = calls[:above] + [line] + calls[above:]
        book = read_text(BOUNDED + "\n".join(lines))
        found = [(question.name, question.calls_above) for question in book.questions]
        checks.check(f"the line {line!r} below {above} calls", found == [("bound", above)], found)
        checks.check(f"bytes with the line {line!r}", book.to_bytes() == data)
        whole = data if above == len(calls) else data[: -CALL.size * (len(calls) - above)]
        checks.check(f"bytes above the line {line!r}", book.first_bytes(above) == whole)
    again = text_of(read_text(BOUNDED + "bound\n" + ROWS + "bound\n").to_bytes())
    checks.check("a text without its questions", again == text_of(data), again)


def check_answers(checks):
    """Sums of rows under several keys, and what hoofask prints about books."""
    for name, keys, total in SUMS:
        tables = TABLES.replace("column note", "column note folded") if "folded" in name else TABLES
        found = ask_number("bound", read_text(tables + keys + JOURNAL + ROWS).to_bytes())
        checks.check(f"the bound under {name}", found == (0, total), found)
    for name, text, printed in BOOKS:
        found = hoofask("bound", input=read_text(text).to_bytes())
        checks.check(f"the bound: {name}", found == (0, printed.encode(), ""), found)


def check_shown(checks):
    """Answers beside the lines; none where the schema is refused."""
    found = run_text(BOUNDED + asked_text(SHOWN))
    checks.check("answers beside questions", found == BOUNDED + SHOWN, "\n" + found)
    numbers = [line.split()[1:] for line in run_text(NAMES).splitlines() if line[:6] == "bound "]
    checks.check("names that are the word", numbers == [["0", "0"], ["0", "1"], ["0", "0"]], numbers)
    for text, code in ((MALFORMED, 1), (LARGE, 3)):
        found = run_text(text + "bound\n")
        told = f"the schema{code:6}{0:6}{0:6}  {REFUSALS[code]}\nbound\naccepted 0, refused 1, rows 0\n"
        checks.check(f"no bound of a schema refused by {code}", found.endswith(told), found)


def check_programs(checks):
    """Answers that only another program in hoofask's place gives, and no program."""
    text = BOUNDED + "bound\n"
    for code in (1, 3, 10):
        status, out, err = tool_with_hoofask(f"{code},0", "run", text)
        line = f"\nbound     {code:6}{0:6}        {REFUSALS[code]}\n"
        checks.check(f"a bound refused by {code}", (status, err) == (0, "") and line in out.decode(), out)
    for printed in ("7", "0,-1", "0,7,0", "0,7\\n0,7", ""):
        status, out, err = tool_with_hoofask(printed, "run", text)
        told = (status, out) == (1, b"") and err.endswith(" does not print the lines of hoofask\n")
        checks.check(f"a bound by a program that prints {printed!r}", told, err)
    status, out, err = tool("run", "-", data=text.encode(), HOOFASK="/nowhere/hoofask")
    checks.check("a bound without hoofask", (status, out) == (1, b"") and "cannot run hoofask" in err, err)
    found = tool("run", "-", data=BOUNDED.encode(), HOOFASK="/nowhere/hoofask")
    checks.check("no question and no hoofask", found[::2] == (0, ""), found)


# Random books: each table has a number, and its other columns name rows of the tables above it.
RANDOM_TABLES = (("horses", ("dam",)), ("sensors", ("horse",)), ("readings", ("horse", "sensor")))
RANDOM_KEYS = (
    ("horses.dam", "horses"), ("sensors.horse", "horses"), ("readings.horse", "horses"),
    ("readings.sensor", "sensors"), ("readings.sensor", "horses"),
)
RANDOM_ROWS = 3


def random_keys(source):
    """Foreign keys in any order, with any on-delete action but SET DEFAULT: triples of ends and action."""
    actions = ("no action", "restrict", "set null", "set null", "cascade", "cascade")
    keys = [(*ends, source.choice(actions)) for ends in RANDOM_KEYS]
    source.shuffle(keys)
    return keys


def random_text(keys, journal):
    """The tables of random books with these keys."""
    text = ""
    for table, columns in RANDOM_TABLES:
        text += f"table {table} rows {RANDOM_ROWS}\n  column number not null unique\n"
        text += "".join(f"  column {column}\n" for column in columns)
    text += "".join(f"key {child} -> {parent}.number on delete {action}\n" for child, parent, action in keys)
    return f"{text}journal {journal}\n"


def random_inserts(source):
    """An insert for each row, as a triple of table, row and values; many are accepted."""
    for table, (_, columns) in enumerate(RANDOM_TABLES):
        for row in range(RANDOM_ROWS):
            yield table, row, [row] + source.choices(FEW_VALUES, k=len(columns))


def counted_bound(keys, rows):
    """The sum over rows, pairs of table and values."""
    cleared = {child for child, _, action in keys if action == "set null"}
    total = 0
    for table, (_, *values) in rows:
        name, columns = RANDOM_TABLES[table]
        filled = {f"{name}.{column}" for column, value in zip(columns, values) if value is not None}
        total += 1 + len(filled & cleared)
    return total


def all_deletes():
    """A delete of each row by its number, and of every row that has a value in a column."""
    for table, (_, columns) in enumerate(RANDOM_TABLES):
        for row in range(RANDOM_ROWS):
            yield call_words(3, table, row)
        for column in range(1 + len(columns)):
            yield where_words(table, (column, 1))
            yield where_words(table, (column, None))


def check_random_deletes(checks):
    """The sum of random books; no delete changes more rows, or needs a longer journal."""
    source, reached, beyond = random.Random(2024), 0, 0
    for number in range(RANDOM_BOOKS):
        keys, inserts = random_keys(source), list(random_inserts(source))
        calls = b"".join(CALL.pack(*call_words(1, *insert)) for insert in inserts)
        answers = run_hoofrun(read_text(random_text(keys, 1)).to_bytes() + calls)[0]
        rows = [(table, values) for (table, _, values), answer in zip(inserts, answers) if not answer[0]]
        bound = counted_bound(keys, rows)
        data = read_text(random_text(keys, max(bound, 1))).to_bytes() + calls
        found = ask_number("bound", data)
        checks.check(f"the bound of random book {number}", found == (0, bound), (found, bound))
        deleted = [run_hoofrun(data + CALL.pack(*words))[0][-1] for words in all_deletes()]
        right = all(code != 15 and changed <= bound for code, changed, _ in deleted)
        checks.check(f"deletes of random book {number}", right, (bound, deleted))
        reached += sum(changed == bound for _, changed, _ in deleted)
        beyond += sum(changed > len(rows) for _, changed, _ in deleted)
    checks.check("random deletes that reach the bound", reached > 9, reached)
    checks.check("random deletes that change more rows than there are", beyond > 0, beyond)


def check_bounds(checks):
    """Every check of the question."""
    for run in (check_lines, check_answers, check_shown, check_programs, check_random_deletes):
        run(checks)
