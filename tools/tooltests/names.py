"""Tests of names as values and of folded columns in the text: their lines and their bytes."""

from booktext.calls import CALL, call_words, where_words
from booktext.reader import read_text
from booktext.runner import run_hoofrun
from booktext.writer import text_of

HEADER, FOLDED_AT, ZEROS = 16, 9, range(10, 16)  # bytes of a table record
LEAST, MOST = -(1 << 63), (1 << 63) - 1

# Names as decode gives them, so that a text comes back as it is.
COLUMNS = """\
table t0 rows 4
  column c0 folded
  column c1
"""
BOOK = COLUMNS + "journal 8\n"
# A name as it is read and written, and its value.
NAMES = [
    ('"Lf2"', 0x32664C),
    ('"lF2"', 0x32466C),
    ('"2"', 0x32),
    ('" "', 0x20),
    ('"~"', 0x7E),
    ('" L "', 0x204C20),
    ('"null"', 0x6C6C756E),
    ('"#"', 0x23),
    ('"a # b"', 0x6220232061),
    (r'"\"', 0x5C),
    (r'"L\n2"', 0x326E5C4C),
    ("\"it's\"", 0x73277469),
    ('"ABCDEFGH"', 0x4847464544434241),
    ('"~~~~~~~~"', 0x7E7E7E7E7E7E7E7E),
    ('"=,.()?->"', 0x3E2D3F29282E2C3D),
]
# Values that are no names: 0, bytes that are not printable, a quote, bytes after a zero byte.
NO_NAMES = [
    0, 1, 9, 0x1F, 0x7F, 0x80, 0xC4, 0x22, 0x4C00, 0x32004C, 0x32664C << 8, 0x4C224C, 0x0A4C,
    0x7F32664C, 0x32664C | 1 << 56, -1, -0x32664C, LEAST, LEAST + 0x32664C, MOST,
]
# A line with names, and as it is written: only a folded column has its values as names.
LINES = [
    ('insert t0 0 c0="Lf2" c1="Lf2"', 'insert t0 0 c0="Lf2" c1=3302988'),
    ('insert t0 0 c1="Lf2"c0=3302988', 'insert t0 0 c0="Lf2" c1=3302988'),
    ('update t0 3 c0 = "a # b" c1=null # "', 'update t0 3 c0="a # b" c1=null'),
    ('update t0 set c0="lf2" where c1 = "lf2"', 'update t0 set c0="lf2" where c1 = 3303020'),
    ('update t0 set c1="L" where c0 = "#" # #', 'update t0 set c1=76 where c0 = "#"'),
    ('update t0 set c0=null where c0="null"', 'update t0 set c0=null where c0 = "null"'),
    ('delete t0 where c0 = " "', 'delete t0 where c0 = " "'),
    ("delete t0 where c0 = 32", 'delete t0 where c0 = " "'),
    ("delete t0 where c1 = 32", "delete t0 where c1 = 32"),
    ('delete t0 where c1 = " "', "delete t0 where c1 = 32"),
    ("words 1 0 0 0 32 32 0 0 0 0 0 0", 'insert t0 0 c0=" " c1=32'),
    ("words 1 0 0 1 32 32 0 0 0 0 0 0", "words 1 0 0 1 32 32 0 0 0 0 0 0"),
]
# Words of a column line as they are read and as they are written.
COLUMN_LINES = [
    ("folded", "folded"),
    ('folded default "Lf2"', 'folded default "Lf2"'),
    ('folded default "a # b" # default', 'folded default "a # b"'),
    ("folded default 3302988", 'folded default "Lf2"'),
    ("folded default 0", "folded"),
    ("folded default 34", "folded default 34"),
    ("folded default null", "folded default null"),
    ('default "Lf2"', "default 3302988"),
    ('folded not null unique default "Lf2"', 'folded not null unique default "Lf2"'),
    ("folded unique", "folded unique"),
    ("folded not null default -1", "folded not null default -1"),
]
# Names are told by their places, so that none is reserved.
RESERVED = """\
table folded rows 4
  column folded folded
  column null default "null"
journal 8
insert folded 0 folded="null" null=null
"""
RESERVED_DECODED = """\
table t0 rows 4
  column c0 folded
  column c1 default 1819047278
journal 8
insert t0 0 c0="null" c1=null
"""


def check_values(checks):
    """Names against their values; as a name is written what is one, in a folded column alone."""
    for name, value in NAMES:
        found = read_text(BOOK + f"insert t0 0 c0={name} c1={name}").calls[0][1]
        checks.check(f"value of {name}", found == call_words(1, 0, 0, [value, value]), found)
    schema = read_text(BOOK).to_bytes()
    for name, value in NAMES + [(str(value), value) for value in NO_NAMES]:
        found = text_of(schema + CALL.pack(*call_words(1, 0, 0, [value, value])))
        checks.check(f"line of {value}", found == BOOK + f"insert t0 0 c0={name} c1={value}\n", found)


def check_every_byte(checks):
    """A byte at the first, a middle and the last place of a value, against what a name may have."""
    schema = read_text(BOOK).to_bytes()
    for byte in range(256):
        named = 0x20 <= byte <= 0x7E and byte != 0x22
        for before, after in ((b"", b""), (b"", b"Lf2"), (b"Lf", b"2"), (b"Lf23456", b"")):
            value = before + bytes([byte]) + after
            word = int.from_bytes(value.ljust(8, b"\0"), "little", signed=True)
            said = named or (byte == 0 and before and not after)  # a last 0 is past the name
            shown = '"' + value.rstrip(b"\0").decode("latin-1") + '"' if said else str(word)
            data = schema + CALL.pack(*where_words(0, (0, word)))
            text = text_of(data)
            right = text == f"{BOOK}delete t0 where c0 = {shown}\n" and read_text(text).to_bytes() == data
            checks.check(f"byte {byte:02X} after {before} and before {after}", right, text)


def check_lines(checks):
    """Lines with names and of folded columns, as they are written."""
    for read, written in LINES:
        found = text_of(read_text(BOOK + read).to_bytes())
        checks.check(f"line {read}", found == f"{BOOK}{written}\n", found)
    for read, written in COLUMN_LINES:
        text = "{0}  column c2 {1}\njournal 8\n"
        found = text_of(read_text(text.format(COLUMNS, read)).to_bytes())
        checks.check(f"column {read}", found == text.format(COLUMNS, written), found)
    found = text_of(read_text(RESERVED).to_bytes())
    checks.check("names that are words of the form", found == RESERVED_DECODED, found)


def plain_table(columns):
    """The schema of a table with so many columns, none of them folded."""
    lines = "".join(f"  column c{c}\n" for c in range(columns))
    return read_text(f"table t0 rows 4\n{lines}journal 8\n").to_bytes()


def check_mask(checks):
    """Byte 9 has the folded columns; the engine refuses it and bytes 10 to 15 where no line says them."""
    for columns in (1, 3, 7, 8):
        data = plain_table(columns)
        damages = [(FOLDED_AT, value) for value in range(256)]
        for at, value in damages + [(at, value) for at in ZEROS for value in (1, 128, 255)]:
            changed = bytearray(data)
            changed[HEADER + at] = value
            text, answers = text_of(changed), run_hoofrun(changed)[0]
            said = at == FOLDED_AT and value < 1 << columns
            marks = [c for c in range(columns) if f"  column c{c} folded\n" in text]
            name = f"{columns} columns with byte {at} = {value}"
            right = sum(1 << c for c in marks) == value if said else text.startswith("bytes ")
            checks.check(f"{name} as text", right, text)
            checks.check(name, answers == ([] if said else [(1, 0, 0)]), answers)


def check_names(checks):
    """Every check of names and folded columns in the text."""
    for run in (check_values, check_every_byte, check_lines, check_mask):
        run(checks)
