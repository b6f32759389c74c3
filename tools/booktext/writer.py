"""Writes the text that says given bytes; tables are named t0, t1 and so on, columns c0, c1.

Parents of foreign keys that are not drawn are ? and their number.
"""

from .calls import CALL, call_text, value_text
from .schema import ACTIONS, HEADER, MATCHES, read_schema

BYTES_ON_A_LINE = 16


def column_list(table, columns):
    """COLUMN, or (COLUMN, ...) where there are more."""
    names = ", ".join(table.column_name(c) for c in columns)
    return names if len(columns) == 1 else f"({names})"


def unique_on_columns(unique):
    """How many of the first unique keys can stand on column lines: single columns that rise."""
    count, last = 0, -1
    while count < len(unique) and len(unique[count]) == 1 and unique[count][0] > last:
        last = unique[count][0]
        count += 1
    return count


def table_lines(table):
    """The lines of a table."""
    on_columns = unique_on_columns(table.unique)
    lines = [f"table {table.name} rows {table.rows}"]
    for c, column in enumerate(table.columns):
        line = f"  column {column.name}"
        if column.folded:
            line += " folded"
        if column.not_null:
            line += " not null"
        if [c] in table.unique[:on_columns]:
            line += " unique"
        if column.default != 0:
            line += f" default {value_text(column, column.default)}"
        lines.append(line)
    for key in table.unique[on_columns:]:
        names = ", ".join(table.columns[c].name for c in key)
        lines.append(f"  unique ({names})")
    return lines


def key_ends(schema, key):
    """CHILD.COLUMN -> PARENT.COLUMN of a foreign key."""
    child, parent = schema.tables[key.child], schema.parent_table(key.parent)
    return (
        f"{child.name}.{column_list(child, key.child_columns)}"
        f" -> {parent.name}.{column_list(parent, key.parent_columns)}"
    )


def key_line(schema, key):
    """The line of a foreign key."""
    line = f"key {key_ends(schema, key)}" + " windowed" * key.windowed
    if key.match:
        line += f" match {MATCHES[key.match]}"
    if key.on_delete:
        line += f" on delete {ACTIONS[key.on_delete]}"
    if key.on_update:
        line += f" on update {ACTIONS[key.on_update]}"
    return line + " deferred" * key.deferred


def bytes_lines(data):
    """The bytes as they are; one line without bytes where there are none."""
    starts = range(0, max(len(data), 1), BYTES_ON_A_LINE)
    return [f"bytes {data[i : i + BYTES_ON_A_LINE].hex(' ').upper()}".rstrip() for i in starts]


def schema_part(data):
    """The bytes that hoofrun takes for the schema: as many as the length field says, if so many."""
    if len(data) < HEADER.size:
        return data
    return data[: HEADER.unpack(data[: HEADER.size])[-1]]


def text_of(data):
    """The text of an input. A schema that no lines can say is refused, so all of it is raw bytes."""
    head = schema_part(data)
    schema = read_schema(head)
    if schema is None:
        return "\n".join(bytes_lines(data)) + "\n"
    lines = []
    for table in schema.tables:
        lines += table_lines(table)
    lines += [key_line(schema, key) for key in schema.keys]
    lines.append(f"journal {schema.journal}")
    end = len(data) - (len(data) - len(head)) % CALL.size
    for at in range(len(head), end, CALL.size):
        lines.append(call_text(schema, CALL.unpack(data[at : at + CALL.size])))
    if end < len(data):
        lines += bytes_lines(data[end:])
    return "\n".join(lines) + "\n"
