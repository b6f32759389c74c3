#!/usr/bin/env python3
"""Tests of the text form, of hoofask and of the lessons; the last line is 'N passed, M failed'."""

import os
import random
import re
import struct
import sys
import tempfile
from pathlib import Path

import check_lessons
from booktext.line import Mistake
from booktext.programs import ProgramError
from booktext.reader import read_text
from booktext.refusals import REFUSALS
from booktext.runner import run_hoofrun, run_text
from booktext.writer import text_of
from tooltests.bounds import check_bounds
from tooltests.broken_keys import check_broken_keys
from tooltests.checks import Checks, tool
from tooltests.families import check_families
from tooltests.folded import check_folded
from tooltests.half_drawn import check_half_drawn
from tooltests.hoofask import check_build, check_hoofask
from tooltests.inputs import damaged, whole_input
from tooltests.many_rows import check_many_rows
from tooltests.matches import check_matches
from tooltests.mistakes import TABLES, all_mistakes
from tooltests.names import check_names
from tooltests.orphans import check_orphans
from tooltests.window_books import check_window_books
from tooltests.windows import check_windows

RANDOM_INPUTS = 400

PAPER_SCHEMA = bytes.fromhex(
    "464B4231 0200 0100 1000 B000 0800 C000"
    + "0400 01 01 01000000 00 00000000000000" + "00" * 64
    + "0400 02 01 01000000 00 00000000000000" + "00" * 64
    + "01 00 01 04 04 01 01FFFFFF 00FFFFFF 0000"
)
PAPER_CALLS = [
    (4,), (1, 1, 0, 0, 11, 5), (9,), (1, 0, 0, 0, 5), (9,), (2, 0, 0, 0, 6), (3, 0, 1), (3, 0, 0),
]
PAPER_ANSWERS = [
    (0, 0, 0), (0, 1, 1), (21, 0, 0), (0, 1, -1), (0, 0, 0), (0, 2, 0), (11, 0, 0), (0, 2, 0),
]

EVERY_FIELD = """\
table a rows 3
  column x folded not null default -2   # a comment
  unique (x)
  column y unique default null
  unique (y, x)
table b rows 1024
  column x folded default "Lf 2"
  column y default "#"            # "

key a.(y, x) -> a.(x, y) match full on delete set null on update set default
key b.x -> a.y match simple on delete no action on update restrict deferred
key b.(x, y) -> a.(y, x) windowed match simple on delete restrict on update no action
journal 4096
update a 2 y=null x=-9
delete b where x = "L#"
rollback to 2
words 1 2 3 4 5 6 7 8 9 10 11 -12
bytes 0a FF
"""
EVERY_FIELD_BYTES = (
    struct.pack("<4s6H", b"FKB1", 2, 3, 16, 176, 4096, 224)
    + struct.pack("<HBB4BBB6x8q", 3, 2, 1, 1, 2, 3, 0, 2, 1, -2, 0, 0, 0, 0, 0, 0, 0)
    + struct.pack("<HBB4BBB6x8q", 1024, 2, 0, 0, 0, 0, 0, 0, 1, 0x3220664C, 0x23, 0, 0, 0, 0, 0, 0)
    + bytes([0, 0, 0, 2, 3, 2, 1, 0, 255, 255, 0, 1, 255, 255, 1, 0])
    + bytes([1, 0, 1, 0, 1, 1, 0, 255, 255, 255, 1, 255, 255, 255, 0, 0])
    + bytes([1, 0, 0, 1, 0, 2, 0, 1, 255, 255, 1, 0, 255, 255, 0, 1])
    + struct.pack("<12q", 2, 0, 2, 2, -9, 0, 0, 0, 0, 0, 0, 0)
    + struct.pack("<12q", 10, 1, 0, 0, 0x234C, 0, 0, 0, 0, 0, 0, 0)
    + struct.pack("<12q", 7, 2, 0, 0, 0, 0, 0, 0, 0, 0, 0, 0)
    + struct.pack("<12q", 1, 2, 3, 4, 5, 6, 7, 8, 9, 10, 11, -12)
    + b"\x0a\xff"
)
DECODED = """\
table t0 rows 3
  column c0 folded not null unique default -2
  column c1 unique default null
  unique (c0, c1)
table t1 rows 1024
  column c0 folded default "Lf 2"
  column c1 default 35
key t0.(c1, c0) -> t0.(c0, c1) match full on delete set null on update set default
key t1.c0 -> t0.c1 on update restrict deferred
key t1.(c0, c1) -> t0.(c1, c0) windowed on delete restrict
journal 4096
update t0 2 c0=-9 c1=null
delete t1 where c0 = "L#"
rollback to 2
words 1 2 3 4 5 6 7 8 9 10 11 -12
bytes 0A FF
"""


def returns(data):
    """Whether bytes come back from their text, and the text from its bytes."""
    text = text_of(data)
    again = read_text(text).to_bytes()
    return again == data and text_of(again) == text


def check_encoding(checks):
    """Texts against bytes that are written out here."""
    paper = (check_lessons.EXAMPLES / "paper.txt").read_text(encoding="utf-8")
    calls = b"".join(struct.pack("<12q", *c, *[0] * (12 - len(c))) for c in PAPER_CALLS)
    checks.check("bytes of the paper's example", read_text(paper).to_bytes() == PAPER_SCHEMA + calls)
    checks.check("bytes of every field", read_text(EVERY_FIELD).to_bytes() == EVERY_FIELD_BYTES)
    checks.check("text of every field", text_of(EVERY_FIELD_BYTES) == DECODED)
    windows = EVERY_FIELD.replace("\n", "\r\n")
    checks.check("lines that end with CR LF", read_text(windows).to_bytes() == EVERY_FIELD_BYTES)
    text = "bytes 46 4b\nbytes\n# nothing\nbytes 00\n"
    checks.check("bytes alone", read_text(text).to_bytes() == b"FK\0")


def check_round_trips(checks):
    """Bytes to text and back: the examples, random inputs, damaged ones."""
    for path in sorted(check_lessons.EXAMPLES.glob("*.txt")):
        data = read_text(path.read_text(encoding="utf-8")).to_bytes()
        checks.check(f"round trip of {path.name}", returns(data))
    for data in (b"", b"F", b"FKB1" + bytes(12), bytes(96), b"FKB1" + b"\xff" * 300):
        checks.check(f"round trip of {data[:8]}", returns(data))
    source, texts = random.Random(2024), ""
    for number in range(RANDOM_INPUTS):
        data = whole_input(source)
        text = text_of(data)
        checks.check(f"round trip of random input {number}", text[:5] != "bytes" and returns(data))
        checks.check(f"round trip of damaged input {number}", returns(damaged(source, data)))
        texts += text
    for start in (
        r"key .* match full", r"key .* windowed$", r"key .* windowed match full", r"key .* -> \?",
        r"key .* -> t\d+\.\S*\?", r"delete \S+ where ", r"update \S+ set ", "words 10 ", "words 11 ",
        r"  column \S+ folded", '  column .* default "',
        'insert .*="Lf2"', r'update \S+ set \S+="', 'delete .* = "Lf2"', 'update .*="Lf2 #~Az"',
    ):
        checks.check(f"random inputs with {start}", re.search(f"^{start}", texts, re.MULTILINE))


def check_mistakes(checks):
    """Each mistake is reported on its line."""
    for text, line_number, part in all_mistakes():
        try:
            read_text(text)
            found = "no mistake"
        except Mistake as mistake:
            found = f"{mistake.line_number}: {mistake}"
        right = found.startswith(f"{line_number}: ") and part in found
        checks.check(f"mistake on line {line_number}, {part!r}", right, f"found {found}")


def check_runs(checks):
    """Answers of hoofrun, and how they are laid beside the calls."""
    calls = b"".join(struct.pack("<12q", *c, *[0] * (12 - len(c))) for c in PAPER_CALLS)
    answers, tally = run_hoofrun(PAPER_SCHEMA + calls)
    checks.check("answers of the paper's example", answers == PAPER_ANSWERS)
    checks.check("tally of the paper's example", tally == "accepted,6,refused,2,rows,6")
    codes = [1, 3, 4, *range(10, 25)]
    checks.check("names of the refusals", sorted(REFUSALS) == codes and all(REFUSALS.values()))
    for text, code in (
        (TABLES.replace("journal 8", "journal 0"), 1),
        (TABLES.replace("rows 4", "rows 1024").replace("journal 8", "journal 4096"), 3),
        ("bytes\n", 1),
    ):
        shown = run_text(text + ("commit\n" if code > 1 else ""))
        line = f"the schema{code:6}{0:6}{0:6}  {REFUSALS[code]}\n"
        checks.check(f"a schema refused by {code}", line in shown, shown)
        checks.check(f"tally of {code}", shown.endswith("\naccepted 0, refused 1, rows 0\n"), shown)
    shown = run_text(TABLES + "begin # open\nbytes 01 02\n")
    lines = shown.splitlines()[-3:]
    checks.check("a call beside its answer", lines[0].split("open")[1].split() == ["0"] * 3, shown)
    checks.check("a short last call", lines[1].endswith("     4     0     0  call malformed"), shown)
    call = "insert trims 0 number=11 horse=null"
    shown = run_text(TABLES.replace("> horses.number", "> ?yards.?name") + call + "\n")
    line = f"\n{call}{23:6}{0:6}{0:6}  broken key\n"
    checks.check("a broken key beside the first call", line in shown and "the schema" not in shown, shown)


def check_commands(checks):
    """The command line: files, standard streams, mistakes."""
    with tempfile.TemporaryDirectory() as folder:
        text, data, again = (os.path.join(folder, name) for name in ("a.txt", "a.bin", "b.txt"))
        Path(text).write_text(EVERY_FIELD, encoding="utf-8")
        checks.check("encode", tool("encode", text, data) == (0, b"", ""))
        checks.check("encoded file", Path(data).read_bytes() == EVERY_FIELD_BYTES)
        checks.check("decode", tool("decode", data, again) == (0, b"", ""))
        checks.check("decoded file", read_text(Path(again).read_text()).to_bytes() == EVERY_FIELD_BYTES)
        Path(text).write_text(TABLES + "begin\ncomit\n", encoding="utf-8")
        encode = ("encode", text, os.path.join(folder, "c.bin"))
        for arguments in (encode, ("run", text), ("orphans", text)):
            status, out, err = tool(*arguments)
            told = err.startswith(f"{text}:10: expected ") and err.endswith("found 'comit'\n")
            checks.check(f"{arguments[0]} of a mistake", (status, out) == (1, b"") and told, err)
        checks.check("nothing written", not os.path.exists(os.path.join(folder, "c.bin")))
    checks.check("streams", tool("encode", "-", "-", data=TABLES.encode())[1][:4] == b"FKB1")
    checks.check("byte order mark", tool("encode", "-", "-", data=b"\xef\xbb\xbfbytes 01")[1] == b"\x01")
    told = tool("encode", "-", "-", data=b"\n\xff")[2]
    checks.check("no text", told == "-:2: expected text, found the byte FF\n", told)


def check_command_faults(checks):
    """The command line: no file, no program, another program, usage."""
    for command, program in (("run", "hoofrun"), ("orphans", "hoofask")):
        found = tool(command, "/nowhere/a.txt")
        told = "hooftext: /nowhere/a.txt: No such file or directory\n"
        checks.check(f"{command} of no file", found == (1, b"", told), found)
        for path, told in (
            (f"/nowhere/{program}", f"cannot run {program}"),
            ("/bin/true", f"/bin/true does not print the lines of {program}"),
        ):
            status, out, err = tool(command, "-", data=TABLES.encode(), **{program.upper(): path})
            checks.check(f"{command} by {path}", (status, out) == (1, b"") and told in err, err)
    for arguments in (
        (), ("help",), ("encode", "a"), ("decode", "a", "b", "c"), ("run",), ("orphans",),
        ("orphans", "a", "b"),
    ):
        status, out, err = tool(*arguments)
        used = (status, out) == (2, b"") and err.startswith("usage: hooftext.py encode TEXT BYTES")
        checks.check(f"usage after {arguments}", used, err)


def check_blocks(checks):
    """The blocks of the lessons, and faults that the check of lessons must find."""
    lessons = check_lessons.LESSONS.read_text(encoding="utf-8")
    for block, fault in check_lessons.check(lessons):
        checks.check(f"lesson {block}", not fault, fault)
    for command in ("run", "orphans"):
        fault = check_lessons.block_fault(command, "examples/paper.txt", "otherwise\n")
        checks.check(f"another answer to {command}", "answers otherwise" in str(fault), fault)
    fault = check_lessons.block_fault("encode", "examples/paper.txt", "")
    checks.check("a block of another command", "found encode" in str(fault), fault)
    examples = {f"run examples/{path.name}" for path in check_lessons.EXAMPLES.glob("*.txt")}
    not_run = lessons.replace("hooftext.py run", "hooftext.py orphans")
    found = {block for block, fault in check_lessons.check(not_run) if "not shown" in str(fault)}
    checks.check("examples that are not run", examples and found == examples, found)


def main():
    """Runs every check; the status is 0 only where none failed."""
    checks = Checks()
    for run in (
        check_build, check_encoding, check_round_trips, check_mistakes, check_many_rows, check_matches,
        check_half_drawn, check_broken_keys, check_names, check_folded, check_windows,
        check_window_books, check_runs, check_hoofask, check_orphans, check_bounds, check_families,
        check_commands, check_command_faults, check_blocks,
    ):
        try:
            run(checks)
        except (OSError, ProgramError) as error:
            checks.check(run.__name__, False, error)
    print(f"{checks.passed} passed, {checks.failed} failed")
    return 1 if checks.failed else 0


if __name__ == "__main__":
    sys.exit(main())
