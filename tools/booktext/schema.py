"""Tables and foreign keys, and the schema bytes that say them."""

import struct
from dataclasses import dataclass, field

MAGIC = bytes.fromhex("464B4231")
ACTIONS = ("no action", "restrict", "set null", "set default", "cascade")
MATCHES = ("simple", "full")
MOST_COLUMNS = 8
MOST_UNIQUE = 4
MOST_KEY_COLUMNS = 4

HEADER = struct.Struct("<4s6H")  # magic, T, F, offset of tables, offset of foreign keys, J, length
TABLE = struct.Struct("<HBB4sBB6x8q")  # R, C, NOT NULL, unique masks, default-is-NULL, folded, defaults
# child, parent, deferred, actions, n, columns of both, match, windowed
FOREIGN_KEY = struct.Struct("<6B4s4sBB")
NO_COLUMN = 255
LEAST_WINDOW_COLUMNS = 2  # the last column of a windowed key is the day
WINDOW_ACTIONS = ACTIONS[:2]


@dataclass
class Column:
    """A column; its default is an integer, or None for NULL."""

    name: str
    folded: bool = False
    not_null: bool = False
    default: int | None = 0


@dataclass
class Table:
    """A table; each unique key is a rising list of column numbers."""

    name: str
    rows: int
    columns: list = field(default_factory=list)
    unique: list = field(default_factory=list)

    def column_number(self, name):
        """The number of the column with this name, or None."""
        names = [column.name for column in self.columns]
        return names.index(name) if name in names else None

    def column_name(self, number):
        """The name of the column with this number; one that is not drawn is ? and its number."""
        return self.columns[number].name if number < len(self.columns) else undrawn_name(number)


@dataclass
class ForeignKey:
    """A foreign key; tables, columns, actions and the match are numbers. Its parent may not be drawn."""

    child: int
    child_columns: list
    parent: int
    parent_columns: list
    on_delete: int = 0
    on_update: int = 0
    deferred: bool = False
    match: int = 0
    windowed: bool = False

    def has_window_columns(self):
        """Whether there are columns enough for a windowed key."""
        return len(self.child_columns) >= LEAST_WINDOW_COLUMNS

    def has_window_actions(self):
        """Whether a windowed key may have these actions."""
        return max(self.on_delete, self.on_update) < len(WINDOW_ACTIONS)


@dataclass
class Schema:
    """The tables, the foreign keys and the journal room of a book."""

    tables: list = field(default_factory=list)
    keys: list = field(default_factory=list)
    journal: int | None = None

    def table_number(self, name):
        """The number of the table with this name, or None."""
        names = [table.name for table in self.tables]
        return names.index(name) if name in names else None

    def parent_table(self, number):
        """The table with this number; one that is not drawn has no columns."""
        return self.tables[number] if number < len(self.tables) else Table(undrawn_name(number), 0)

    def length(self):
        """The number of schema bytes."""
        return HEADER.size + TABLE.size * len(self.tables) + FOREIGN_KEY.size * len(self.keys)

    def fits(self):
        """Whether the length goes into 16 bits, and each table's number into a byte."""
        return self.length() < 1 << 16 and len(self.tables) <= 256


def undrawn_name(word):
    """How a table or column that is not drawn is written: by a name or by its number."""
    return f"?{word}"


def mask_of(columns):
    """The mask with the bits of these column numbers."""
    return sum(1 << column for column in set(columns))


def columns_in(mask, count):
    """The column numbers below count whose bits are set."""
    return [column for column in range(count) if mask >> column & 1]


def table_bytes(table):
    """A table record."""
    columns = table.columns
    masks = [mask_of(key) for key in table.unique] + [0] * (MOST_UNIQUE - len(table.unique))
    not_null = mask_of(c for c, column in enumerate(columns) if column.not_null)
    null_default = mask_of(c for c, column in enumerate(columns) if column.default is None)
    folded = mask_of(c for c, column in enumerate(columns) if column.folded)
    defaults = [column.default or 0 for column in columns] + [0] * (MOST_COLUMNS - len(columns))
    return TABLE.pack(
        table.rows, len(columns), not_null, bytes(masks), null_default, folded, *defaults
    )


def key_bytes(key):
    """A foreign key record."""
    count = len(key.child_columns)
    rest = [NO_COLUMN] * (MOST_KEY_COLUMNS - count)
    numbers = (key.child, key.parent, key.deferred, key.on_delete, key.on_update, count)
    columns = (bytes(key.child_columns + rest), bytes(key.parent_columns + rest))
    return FOREIGN_KEY.pack(*numbers, *columns, key.match, key.windowed)


def schema_bytes(schema):
    """The whole schema: header, table records, foreign key records."""
    tables, keys = len(schema.tables), len(schema.keys)
    keys_at = HEADER.size + TABLE.size * tables
    header = (MAGIC, tables, keys, HEADER.size, keys_at, schema.journal, schema.length())
    records = [table_bytes(table) for table in schema.tables]
    records += [key_bytes(key) for key in schema.keys]
    return HEADER.pack(*header) + b"".join(records)


def read_table(number, record):
    """The table that a record says, its columns named c0, c1 and so on."""
    rows, count, not_null, masks, null_default, folded, *defaults = TABLE.unpack(record)
    table = Table(f"t{number}", rows)
    for c in range(min(count, MOST_COLUMNS)):
        default = None if null_default >> c & 1 else defaults[c]
        marks = (bool(mask >> c & 1) for mask in (folded, not_null))
        table.columns.append(Column(f"c{c}", *marks, default))
    table.unique = [columns_in(mask, count) for mask in masks if mask]
    return table


def read_key(record):
    """The foreign key that a record says."""
    child, parent, deferred, *actions, count, child_part, parent_part, match, windowed = (
        FOREIGN_KEY.unpack(record)
    )
    columns = list(child_part[:count]), parent, list(parent_part[:count])
    return ForeignKey(child, *columns, *actions, bool(deferred), match, bool(windowed))


def has_names(schema, key):
    """Whether the key has columns, those of the child are drawn, and actions and match have names."""
    if not key.child_columns or key.child >= len(schema.tables):
        return False
    if max(key.on_delete, key.on_update) >= len(ACTIONS) or key.match >= len(MATCHES):
        return False
    return max(key.child_columns) < len(schema.tables[key.child].columns)


def has_line(schema, key):
    """Whether a line says the key: it has names, and if it is windowed it is as such a key must be."""
    may_be_windowed = key.has_window_columns() and key.has_window_actions()
    return has_names(schema, key) and (may_be_windowed or not key.windowed)


def read_schema(data):
    """The schema that these bytes say, or None where lines of tables and keys cannot say them."""
    if len(data) < HEADER.size:
        return None
    _, tables, keys, _, _, journal, _ = HEADER.unpack(data[: HEADER.size])
    keys_at = HEADER.size + TABLE.size * tables
    if len(data) != keys_at + FOREIGN_KEY.size * keys:
        return None
    schema = Schema(journal=journal)
    for number, at in enumerate(range(HEADER.size, keys_at, TABLE.size)):
        schema.tables.append(read_table(number, data[at : at + TABLE.size]))
    for at in range(keys_at, len(data), FOREIGN_KEY.size):
        schema.keys.append(read_key(data[at : at + FOREIGN_KEY.size]))
    said = schema.fits() and all(has_line(schema, key) for key in schema.keys)
    return schema if said and schema_bytes(schema) == data else None
