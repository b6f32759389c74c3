"""Tests of calls for many rows: their lines, and that all others of kinds 10 and 11 are refused."""

import random

from booktext.calls import CALL, where_words
from booktext.reader import read_text
from booktext.runner import run_hoofrun
from booktext.writer import text_of

from .inputs import WORDS

RANDOM_CALLS = 400
LEAST, MOST = min(WORDS), max(WORDS)

# Names as decode gives them, so that a text comes back as it is.
BOOK = """\
table t0 rows 4
  column c0 not null unique
table t1 rows 4
  column c0 not null unique
  column c1
  column c2
key t1.c1 -> t0.c0 on delete cascade deferred
journal 8
"""
LINES = [
    ("delete t0 where c0 = 5", (10, 0, 0, 0, 5)),
    ("delete t1 where c2 = -7", (10, 1, 2, 0, -7)),
    ("delete t1 where c1 = null", (10, 1, 1, 1)),
    (f"delete t1 where c0 = {LEAST}", (10, 1, 0, 0, LEAST)),
    ("update t1 set c1=6 where c1 = 5", (11, 1, 1, 0, 5, 1, 6)),
    ("update t1 set c2=0 where c1 = 0", (11, 1, 1, 0, 0, 2, 0)),
    ("update t1 set c1=8 where c2 = null", (11, 1, 2, 1, 0, 1, 8)),
    ("update t1 set c2=null where c1 = 9", (11, 1, 1, 2, 9, 2)),
    ("update t1 set c1=null where c1 = null", (11, 1, 1, 3, 0, 1)),
    (f"update t0 set c0={MOST} where c0 = {LEAST}", (11, 0, 0, 0, LEAST, 0, MOST)),
]
SPELLINGS = [
    ("delete t1 where c1=5", "delete t1 where c1 = 5"),
    ("  delete  t1 where c1 =null # all", "delete t1 where c1 = null"),
    ("update t1 set c1 = 6 where c2= 5", "update t1 set c1=6 where c2 = 5"),
]
# Names are told by their places, so that none is reserved.
NAMES = """\
table where rows 4
  column set
  column where
  column null
journal 8
"""
NAMED_LINES = [
    ("delete where where where = 5", (10, 0, 1, 0, 5)),
    ("delete where where null = null", (10, 0, 2, 1)),
    ("update where set set=null where null = 6", (11, 0, 2, 2, 6, 0)),
    ("update where set null=null where set = null", (11, 0, 0, 3, 0, 2)),
    ("update where 3 null=null set=1 where=2", (2, 0, 3, 4, 1, 2)),
]
UNSAID = [
    (10, 2, 0), (10, -1, 0), (10, 1, 3), (10, 1, -1), (10, 0, 1),
    (10, 1, 1, 2), (10, 1, 1, 3), (10, 1, 1, -1), (10, 1, 1, 1, 5), (10, 1, 1, 0, 5, 1),
    (10, 1, 1, 0, 5, 0, 1), (10, 1, 1, 0, 5, 0, 0, 1), (10, 1, 1, 0, 5, 0, 0, 0, 0, 0, 0, 1),
    (11, 2, 0), (11, -1, 0), (11, 1, 3), (11, 1, -1), (11, 0, 1),
    (11, 1, 1, 4), (11, 1, 1, -1), (11, 1, 1, 1, 5), (11, 1, 1, 3, 5), (11, 1, 1, 2, 5, 1, 6),
    (11, 1, 1, 3, 0, 1, 6), (11, 1, 1, 0, 5, 3, 6), (11, 1, 1, 0, 5, -1, 6), (11, 0, 0, 0, 5, 1, 6),
    (11, 1, 1, 0, 5, 1, 6, 1), (11, 1, 1, 0, 5, 1, 6, 0, 0, 0, 0, -1),
]


def padded(words):
    """A call's words with the zeros that follow."""
    return (*words, *[0] * (12 - len(words)))


def words_line(words):
    """The line of a call that no verb says."""
    return "words " + " ".join(map(str, padded(words)))


def check_lines(checks):
    """Lines against words that are written out above, both ways."""
    for book, lines in ((BOOK, LINES), (NAMES, NAMED_LINES)):
        for line, words in lines:
            found = read_text(book + line).calls[0][1]
            checks.check(f"words of {line}", found == padded(words), found)
    schema = read_text(BOOK).to_bytes()
    for line, words in LINES + [(words_line(words), words) for words in UNSAID]:
        found = text_of(schema + CALL.pack(*padded(words)))
        checks.check(f"line of {words}", found == f"{BOOK}{line}\n", found)
    for spelling, line in SPELLINGS:
        found = text_of(read_text(BOOK + spelling).to_bytes())
        checks.check(f"spelling {spelling}", found == f"{BOOK}{line}\n", found)


def random_call(source):
    """A call for many rows of BOOK, in half of the cases with one word written over."""
    table = source.randrange(2)
    columns = (1, 3)[table]
    sought, given = ((source.randrange(columns), source.choice((None, 0, 5))) for _ in range(2))
    words = list(where_words(table, sought, source.choice((None, given))))
    if source.random() < 0.5:
        words[source.randrange(1, 12)] = source.choice((*WORDS, 4))
    return tuple(words)


def check_refusals(checks):
    """The engine refuses a call of kinds 10 and 11 by 4 exactly where no line says it."""
    source = random.Random(2024)
    calls = [padded(words) for _, words in LINES] + [padded(words) for words in UNSAID]
    calls += [random_call(source) for _ in range(RANDOM_CALLS)]
    data = read_text(BOOK).to_bytes() + b"".join(CALL.pack(*words) for words in calls)
    lines = text_of(data).removeprefix(BOOK).splitlines()
    answers = run_hoofrun(data)[0]
    checks.check("an answer to each call", len(lines) == len(answers) == len(calls), len(answers))
    for line, (code, _, _) in zip(lines, answers):
        checks.check(f"refusal of {line}", (code == 4) == line.startswith("words "), code)
    unsaid = sum(line.startswith("words ") for line in lines)
    checks.check("calls of both sorts", min(unsaid, len(lines) - unsaid) > RANDOM_CALLS // 4, unsaid)


def check_many_rows(checks):
    """Every check of calls for many rows."""
    check_lines(checks)
    check_refusals(checks)
