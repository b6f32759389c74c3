"""Reads a whole text: schema lines, then calls and questions; or bytes alone."""

import re
from dataclasses import dataclass, field

from .call_lines import read_call
from .calls import CALL
from .line import Line, Mistake
from .questions import QUESTIONS, Question
from .schema import Schema, schema_bytes
from .schema_lines import SchemaLines

BYTE = re.compile(r"[0-9A-Fa-f]{2}")


@dataclass
class Book:
    """What a text says. Without a schema it is raw bytes alone; else raw bytes are a short last call."""

    schema: Schema | None = None
    schema_line: int = 0  # the last line of the schema
    calls: list = field(default_factory=list)  # pairs of line number and words
    questions: list = field(default_factory=list)
    raw: bytes = b""
    raw_line: int | None = None

    def first_bytes(self, calls):
        """The bytes of the schema and of the first so many calls."""
        head = schema_bytes(self.schema) if self.schema else b""
        return head + b"".join(CALL.pack(*words) for _, words in self.calls[:calls])

    def to_bytes(self):
        """The bytes that hoofrun reads."""
        return self.first_bytes(len(self.calls)) + self.raw


class Reader:
    """Reads the lines of a text one after the other into a book."""

    def __init__(self):
        self.book = Book()
        self.schema_lines = SchemaLines(Schema())

    def read_line(self, line):
        """Reads one line."""
        if line.text.split()[:1] == ["bytes"]:
            self.read_bytes(line)
        elif line.peek() is None:
            return
        elif self.book.raw_line:
            line.expected("'bytes' or the end of the text after a bytes line")
        elif line.peek() in self.schema_lines.verbs:
            self.read_schema_line(line)
        elif line.peek() in QUESTIONS:
            self.read_question(line)
        else:
            self.read_call(line)

    def read_schema_line(self, line):
        """Reads a line of the schema."""
        if self.book.calls or self.book.questions:
            line.expected("a call or a question (tables, keys and the journal come before them)")
        self.schema_lines.read(line)
        self.book.schema = self.schema_lines.schema
        self.book.schema_line = line.line_number

    def read_call(self, line):
        """Reads a call."""
        words = read_call(line, self.schema_lines.schema)
        if words is None:
            line.expected(
                "table, column, unique, key, journal, insert, update, delete, begin, savepoint,"
                " release, rollback, commit, bound, words or bytes"
            )
        self.need_journal(line.line_number)
        self.book.calls.append((line.line_number, words))

    def read_question(self, line):
        """Reads a question."""
        name = line.name("a question")
        line.end()
        self.need_journal(line.line_number)
        self.book.questions.append(Question(line.line_number, name, len(self.book.calls)))

    def need_journal(self, line_number):
        """The schema ends here, so the journal line must have been read."""
        if self.schema_lines.schema.journal is None:
            raise Mistake(line_number, "expected a line 'journal N' before calls and questions")

    def read_bytes(self, line):
        """bytes HH HH ...: the whole input, or a last call that is too short"""
        book, pairs = self.book, line.text.split()[1:]
        for pair in pairs:
            if not BYTE.fullmatch(pair):
                line.fail(f"expected bytes of two hexadecimal digits, found {pair!r}")
        book.raw += bytes.fromhex("".join(pairs))
        book.raw_line = line.line_number
        if book.schema:
            self.need_journal(line.line_number)
            if not 0 < len(book.raw) < CALL.size:
                line.fail(f"expected 1 to {CALL.size - 1} bytes of a short last call")


def read_text(text):
    """The book that a text says; a mistake is raised with its line."""
    reader = Reader()
    lines = text.removesuffix("\n").split("\n")
    for number, line in enumerate(lines, 1):
        reader.read_line(Line(number, line))
    if reader.book.schema or not reader.book.raw_line:
        reader.need_journal(len(lines))
    return reader.book
