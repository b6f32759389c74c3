"""Reads the lines of calls."""

from .calls import LEAST_WORD, LEVEL_KINDS, MOST_WORD, PLAIN_KINDS, ROW_KINDS
from .calls import call_words, where_words
from .schema_lines import read_column_name, read_table_name, read_value

EVERY_ROW = {"update": "set", "delete": "where"}  # what stands in place of a row number


def read_call(line, schema):
    """The twelve words of the call that a line says, or None where its first word is no verb."""
    words = None
    if line.accept("words"):
        words = read_words(line)
    for verb, kind in LEVEL_KINDS.items():
        if words is None and line.accept(verb):
            words = call_words(kind, line.number("a level", LEAST_WORD, MOST_WORD))
    for verb, kind in PLAIN_KINDS.items():
        if words is None and line.accept(verb):
            words = call_words(kind)
    for verb in ROW_KINDS:
        if words is None and line.accept(verb):
            words = read_row_call(line, schema, verb)
    if words is not None:
        line.end()
    return words


def read_row_call(line, schema, verb):
    """TABLE ROW COLUMN=VALUE ..., a delete without values; or what is done to every row found."""
    number = read_table_name(line, schema)
    table, word = schema.tables[number], EVERY_ROW.get(verb)
    if word and not line.at_number():
        line.require(word, f"a row number or {word!r}")
        return read_where_call(line, number, table, verb)
    row = line.number("a row number", LEAST_WORD, MOST_WORD)
    values = [] if verb == "delete" else read_cells(line, table)
    return call_words(ROW_KINDS[verb], number, row, values)


def read_where_call(line, number, table, verb):
    """COLUMN = VALUE of a delete; COLUMN=VALUE where COLUMN = VALUE of an update."""
    given = None
    if verb == "update":
        given = read_cell(line, table)
        line.require("where", "'where' (one column is set)")
    return where_words(number, read_cell(line, table), given)


def read_cell(line, table):
    """COLUMN=VALUE: the column's number and the value."""
    column = read_column_name(line, table)
    line.require("=")
    return column, read_value(line)


def read_cells(line, table):
    """COLUMN=VALUE for every column of the table, in any order."""
    values = {}
    while line.peek() is not None:
        column, value = read_cell(line, table)
        if column in values:
            line.fail(f"expected each column once, {table.columns[column].name} is given twice")
        values[column] = value
    for c, column in enumerate(table.columns):
        if c not in values:
            line.fail(f"expected every column of {table.name}, {column.name} is missing")
    return [values[c] for c in range(len(table.columns))]


def read_words(line):
    """Twelve words as they are."""
    words = []
    while line.peek() is not None:
        words.append(line.number("a word", LEAST_WORD, MOST_WORD))
    if len(words) != 12:
        line.fail(f"expected twelve words, found {len(words)}")
    return tuple(words)
