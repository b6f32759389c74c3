"""Calls of twelve words: kind, a, b, NULL mask, eight values."""

import struct

from .names import name_of

CALL = struct.Struct("<12q")
ROW_KINDS = {"insert": 1, "update": 2, "delete": 3}
WHERE_KINDS = {"delete": 10, "update": 11}  # every row whose column has a sought value
LEVEL_KINDS = {"release": 6, "rollback to": 7}
PLAIN_KINDS = {"begin": 4, "savepoint": 5, "rollback": 8, "commit": 9}
LEAST_WORD = -(1 << 63)
MOST_WORD = (1 << 63) - 1


def call_words(kind, a=0, b=0, values=()):
    """The words of a call; a value is an integer, or None for NULL."""
    mask = sum(1 << c for c, value in enumerate(values) if value is None)
    numbers = [value or 0 for value in values]
    return (kind, a, b, mask, *numbers, *[0] * (8 - len(numbers)))


def where_words(table, sought, given=None):
    """A delete of every row with the sought cell (column, value), or an update to the given cell."""
    kind = WHERE_KINDS["update" if given else "delete"]
    (column, value), (set_column, set_value) = sought, given or (0, 0)
    mask = (value is None) + 2 * (set_value is None)
    return (kind, table, column, mask, value or 0, set_column, set_value or 0, *[0] * 5)


def value_text(column, value):
    """A value of a column as it is written: in a folded column as a name, where it is one."""
    if value is None:
        return "null"
    name = name_of(value) if column.folded else None
    return f'"{name}"' if name else str(value)


def cell_text(table, cell, equals="="):
    """COLUMN=VALUE of a cell."""
    number, value = cell
    column = table.columns[number]
    return column.name + equals + value_text(column, value)


def row_call_text(verb, schema, words):
    """An insert, update or delete of one row as a line, or None where no line says it."""
    kind, a, b, mask, *values = words
    if not 0 <= a < len(schema.tables):
        return None
    table = schema.tables[a]
    columns = 0 if verb == "delete" else len(table.columns)
    given = [None if mask >> c & 1 else values[c] for c in range(columns)]
    if call_words(kind, a, b, given) != tuple(words):
        return None
    cells = [cell_text(table, cell) for cell in enumerate(given)]
    return " ".join([verb, table.name, str(b), *cells])


def where_call_text(verb, schema, words):
    """A delete or update of every row found as a line, or None where no line says it."""
    _, a, b, mask, value, set_column, set_value, *_ = words
    if not 0 <= a < len(schema.tables):
        return None
    table = schema.tables[a]
    columns = range(len(table.columns))
    sought, given = (b, None if mask & 1 else value), None
    if verb == "update":
        given = (set_column, None if mask & 2 else set_value)
    named = b in columns and set_column in columns
    if not named or where_words(a, sought, given) != tuple(words):
        return None
    change = ["set", cell_text(table, given)] if given else []
    return " ".join([verb, table.name, *change, "where", cell_text(table, sought, " = ")])


def call_text(schema, words):
    """The line that says a call; a call that no verb can say is its twelve words."""
    kind, a = words[:2]
    text = None
    for verb, number in ROW_KINDS.items():
        if kind == number:
            text = row_call_text(verb, schema, words)
    for verb, number in WHERE_KINDS.items():
        if kind == number:
            text = where_call_text(verb, schema, words)
    for verb, number in LEVEL_KINDS.items():
        if call_words(number, a) == tuple(words):
            text = f"{verb} {a}"
    for verb, number in PLAIN_KINDS.items():
        if call_words(number) == tuple(words):
            text = verb
    return text or "words " + " ".join(map(str, words))
