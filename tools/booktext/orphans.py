"""Asks hoofask for the orphan list of a text and tells it by the names of the text."""

import re

from .programs import HOOFASK, ProgramError, numbers_in
from .reader import read_text
from .refusals import refusal_name
from .schema import read_schema
from .writer import key_ends, schema_part

OUTPUT = re.compile(r"(?P<code>[0-9]+),(?P<count>[0-9]+)\n(?P<records>([0-9]+,[0-9]+\n)*)")


def ask_orphans(data):
    """Asks hoofask about bytes; gives the code and the list, pairs of foreign key and row."""
    printed = HOOFASK.run(data, OUTPUT, "orphans")
    records = numbers_in(printed["records"])
    if len(records) != int(printed["count"]):
        raise ProgramError(f"hoofask counted {printed['count']} orphans and listed {len(records)}")
    return int(printed["code"]), records


def orphan_lines(schema, records):
    """A line for each orphan: its foreign key by number and columns, its table and row."""
    if any(number >= len(schema.keys) for number, _ in records):
        raise ProgramError("hoofask listed an orphan of a foreign key that there is not")
    keys = [(f"key {number}", key_ends(schema, schema.keys[number])) for number, _ in records]
    widths = [max(map(len, column)) for column in zip(*keys)]
    lines = []
    for (name, ends), (number, row) in zip(keys, records):
        child = schema.tables[schema.keys[number].child]
        lines.append(f"{name:{widths[0]}}  {ends:{widths[1]}}  {child.name} {row}")
    return lines


def orphans_text(text):
    """The orphans after the last call of a text; bytes alone have the names that decode gives."""
    book = read_text(text)
    data = book.to_bytes()
    code, records = ask_orphans(data)
    if code:
        return f"code {code}  {refusal_name(code)}\n"
    schema = book.schema or read_schema(schema_part(data))
    return "\n".join([f"orphans {len(records)}"] + orphan_lines(schema, records)) + "\n"
