"""Tests of the orphan list in names."""

from booktext.orphans import orphans_text
from booktext.reader import read_text
from booktext.writer import bytes_lines

from .checks import tool, tool_with_hoofask
from .hoofask import BROKEN, MALFORMED, TIED, UNSORTED

UNSORTED_LIST = """\
orphans 4
key 0  trims.horse -> horses.number     trims 1
key 0  trims.horse -> horses.number     trims 3
key 1  readings.horse -> horses.number  readings 0
key 2  readings.trim -> trims.number    readings 0
"""
SENSORS = """\
table sensors rows 4
  column horse not null
  column hoof not null
  unique (horse, hoof)
table readings rows 4
  column hoof
  column horse
key readings.(horse, hoof) -> sensors.(horse, hoof) deferred
journal 8
begin
insert sensors 0 horse=5 hoof=1
insert readings 3 horse=1 hoof=5
insert readings 2 horse=5 hoof=1
insert readings 1 horse=9 hoof=null
insert readings 0 horse=5 hoof=2
"""
SENSORS_LIST = """\
orphans 2
key 0  readings.(horse, hoof) -> sensors.(horse, hoof)  readings 0
key 0  readings.(horse, hoof) -> sensors.(horse, hoof)  readings 3
"""
HALF_FILLED = SENSORS.replace("deferred", "match full deferred")
HALF_FILLED_LIST = """\
orphans 3
key 0  readings.(horse, hoof) -> sensors.(horse, hoof)  readings 0
key 0  readings.(horse, hoof) -> sensors.(horse, hoof)  readings 1
key 0  readings.(horse, hoof) -> sensors.(horse, hoof)  readings 3
"""
TRIMS_LIST = """\
orphans 2
key 0  trims.horse -> horses.number  trims 1
key 0  trims.horse -> horses.number  trims 3
"""
NO_VETS = BROKEN.replace("key", "key horses.number -> ?vets.?name\nkey", 1) + UNSORTED
NO_VETS_LIST = TRIMS_LIST.replace("key 0", "key 1")
ELEVEN_KEYS = (
    "table horses rows 4\n  column number unique\n  column dam\n"
    + "key horses.number -> horses.number\n" * 9
    + "key horses.dam -> horses.number deferred\n" * 2
    + "journal 8\nbegin\ninsert horses 0 number=5 dam=4\n"
)
ELEVEN_KEYS_LIST = """\
orphans 2
key 9   horses.dam -> horses.number  horses 0
key 10  horses.dam -> horses.number  horses 0
"""
BYTES_LIST = """\
orphans 4
key 0  t1.c1 -> t0.c0  t1 1
key 0  t1.c1 -> t0.c0  t1 3
key 1  t2.c1 -> t0.c0  t2 0
key 2  t2.c2 -> t1.c0  t2 0
"""
BYTES = "\n".join(bytes_lines(read_text(TIED + UNSORTED).to_bytes())) + "\n"

LISTS = [
    ("two keys of one row", TIED + UNSORTED, UNSORTED_LIST),
    ("no orphan", TIED, "orphans 0\n"),
    ("a refused commit", TIED + UNSORTED + "commit\n", UNSORTED_LIST),
    ("a short last call", TIED + UNSORTED + "bytes 08 00 00\n", UNSORTED_LIST),
    ("a composite key", SENSORS, SENSORS_LIST),
    ("a half-filled key", HALF_FILLED, HALF_FILLED_LIST),
    ("a book with a broken key", BROKEN + UNSORTED, TRIMS_LIST),
    ("a book with a key to no table", NO_VETS, NO_VETS_LIST),
    ("key numbers of two digits", ELEVEN_KEYS, ELEVEN_KEYS_LIST),
    ("bytes alone", BYTES, BYTES_LIST),
    ("a refused 1", MALFORMED + UNSORTED, "code 1  schema malformed\n"),
    ("no bytes", "bytes\n", "code 1  schema malformed\n"),
]
OTHER_PROGRAMS = [
    ("22,0", 0, "code 22  orphan list too short\n"),
    ("99,0", 0, "code 99  unknown refusal\n"),
    ("0,2\\n0,0", 1, "hooftext: hoofask counted 2 orphans and listed 1\n"),
    ("0,1\\n3,0", 1, "hooftext: hoofask listed an orphan of a foreign key that there is not\n"),
]


def check_other_programs(checks):
    """Answers that only another program in hoofask's place gives."""
    for printed, status, told in OTHER_PROGRAMS:
        found = tool_with_hoofask(printed, "orphans", TIED)
        wanted = (0, told.encode(), "") if status == 0 else (status, b"", told)
        checks.check(f"orphans by a program that prints {printed}", found == wanted, found)


def check_orphans(checks):
    """Lists of books that are written out above, and the command."""
    for name, text, listed in LISTS:
        found = orphans_text(text)
        checks.check(f"orphans of {name}", found == listed, "\n" + found)
    found = tool("orphans", "-", data=(TIED + UNSORTED).encode())
    checks.check("the command orphans", found == (0, UNSORTED_LIST.encode(), ""), found)
    check_other_programs(checks)
