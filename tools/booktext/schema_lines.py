"""Reads the lines of a schema: tables, columns, unique keys, foreign keys, the journal."""

from .calls import LEAST_WORD, MOST_WORD
from .names import name_fault, name_value
from .schema import ACTIONS, LEAST_WINDOW_COLUMNS, MATCHES, MOST_COLUMNS, MOST_KEY_COLUMNS
from .schema import MOST_UNIQUE, WINDOW_ACTIONS, Column, ForeignKey, Table, undrawn_name

FIELD_MOST = (1 << 16) - 1  # rows and journal room are 16-bit fields
NUMBER_MOST = 255  # a foreign key's tables and columns are bytes


class SchemaLines:
    """Reads schema lines one after the other into a schema."""

    def __init__(self, schema):
        self.schema = schema
        self.table = None  # the table that column and unique lines belong to
        self.undrawn_tables = []  # names; the first has the number past the drawn tables
        self.undrawn_columns = {}  # of each parent table by number: likewise
        self.verbs = {
            "table": self.read_table,
            "column": self.read_column,
            "unique": self.read_unique,
            "key": self.read_key,
            "journal": self.read_journal,
        }

    def read(self, line):
        """Reads one line."""
        self.verbs[line.name("a line of the schema")](line)
        line.end()
        if not self.schema.fits():
            line.fail("expected at most 256 tables, and tables and keys of less than 65,536 bytes")

    def read_table(self, line):
        """table NAME rows R"""
        name = line.name("the table's name")
        if self.schema.table_number(name) is not None:
            line.fail(f"expected a new name, but there is a table {name} already")
        line.require("rows")
        self.table = Table(name, line.number("the number of rows", 0, FIELD_MOST))
        if any(key.parent >= len(self.schema.tables) for key in self.schema.keys):
            line.fail("expected every table above the first key to a table that is not drawn")
        self.schema.tables.append(self.table)

    def read_column(self, line):
        """column NAME [folded] [not null] [unique] [default VALUE]"""
        table = self.current_table(line)
        name = line.name("the column's name")
        if table.column_number(name) is not None:
            line.fail(f"expected a new name, but table {table.name} has a column {name} already")
        if len(table.columns) == MOST_COLUMNS:
            line.fail(f"expected at most {MOST_COLUMNS} columns in a table")
        column = Column(name, line.accept("folded"), line.accept("not null"))
        table.columns.append(column)
        if line.accept("unique"):
            self.add_unique(line, [len(table.columns) - 1])
        if line.accept("default"):
            column.default = read_value(line)
        if line.peek() is not None:
            words = "'folded', 'not null', 'unique', 'default'"
            line.expected(f"{words} in this order, each at most once")

    def read_unique(self, line):
        """unique (COLUMN, ...)"""
        table = self.current_table(line)
        if line.peek() != "(":
            line.expected("columns in parentheses")
        columns = read_columns(line, table, MOST_COLUMNS)
        if len(set(columns)) < len(columns):
            line.fail("expected each column once in a unique key")
        self.add_unique(line, sorted(columns))

    def add_unique(self, line, columns):
        """One more unique key of the current table."""
        if len(self.table.unique) == MOST_UNIQUE:
            line.fail(f"expected at most {MOST_UNIQUE} unique keys in a table")
        self.table.unique.append(columns)

    def read_key(self, line):
        """key TABLE.COLUMN -> TABLE.COLUMN and its clauses"""
        self.table = None
        child, child_columns = self.read_child(line)
        line.require("->")
        parent, parent_columns = self.read_parent(line)
        wanted, found = len(child_columns), len(parent_columns)
        if wanted != found:
            line.fail(f"expected as many parent columns as child columns, {wanted}, found {found}")
        key = ForeignKey(child, child_columns, parent, parent_columns)
        read_clauses(line, key)
        self.schema.keys.append(key)

    def read_child(self, line):
        """TABLE.COLUMN or TABLE.(COLUMN, ...)"""
        number = read_table_name(line, self.schema)
        line.require(".")
        return number, read_columns(line, self.schema.tables[number], MOST_KEY_COLUMNS)

    def read_parent(self, line):
        """Likewise; a table or column that is not drawn is ?NAME or ?NUMBER"""
        number, table = self.read_parent_table(line)
        line.require(".")
        undrawn = self.undrawn_columns.setdefault(number, [])
        return number, read_columns(line, table, MOST_KEY_COLUMNS, undrawn)

    def read_parent_table(self, line):
        """The number of a parent table, and the table; one that is not drawn has no columns."""
        if not line.accept("?"):
            number = read_table_name(line, self.schema)
            return number, self.schema.tables[number]
        word = line.peek()
        drawn = [table.name for table in self.schema.tables]
        number = read_undrawn(line, "a table", drawn, self.undrawn_tables)
        return number, Table(undrawn_name(word), 0)

    def read_journal(self, line):
        """journal J"""
        self.table = None
        if self.schema.journal is not None:
            line.fail("expected one journal line, this is the second")
        self.schema.journal = line.number("the number of journal records", 0, FIELD_MOST)

    def current_table(self, line):
        """The table that this line belongs to."""
        if not self.table:
            line.fail("expected a table line above this line, with nothing but its columns between")
        return self.table


def read_table_name(line, schema):
    """The number of the table whose name comes next."""
    number = schema.table_number(line.peek())
    if number is None:
        names = ", ".join(table.name for table in schema.tables)
        line.expected(f"the name of a table ({names or 'there is none yet'})")
    line.next += 1
    return number


def read_column_name(line, table):
    """The number of the column whose name comes next."""
    number = table.column_number(line.peek())
    if number is None:
        names = ", ".join(column.name for column in table.columns)
        line.expected(f"a column of {table.name} ({names or 'it has none'})")
    line.next += 1
    return number


def read_undrawn(line, what, drawn, undrawn):
    """The number of what is not drawn, after its ?: a number past the drawn ones, or a name.

    Names get the numbers past the drawn ones in turn, and the same name the same number.
    """
    if line.at_number():
        return line.number(f"the number of {what} that is not drawn", len(drawn), NUMBER_MOST)
    name = line.name("a name or a number after '?'")
    if name in drawn:
        line.fail(f"expected {what} that is not drawn after '?', but {name} is drawn")
    if name not in undrawn:
        undrawn.append(name)
    number = len(drawn) + undrawn.index(name)
    if number > NUMBER_MOST:
        line.fail(f"expected no more names after '?', the numbers up to {NUMBER_MOST} are taken")
    return number


def read_column(line, table, undrawn):
    """The number of the column that comes next; undrawn has the names of those that are not drawn."""
    if undrawn is None or table.columns and line.peek() != "?":
        return read_column_name(line, table)
    line.require("?", f"'?' before a column of {table.name}, which has none that is drawn")
    drawn = [column.name for column in table.columns]
    return read_undrawn(line, f"a column of {table.name}", drawn, undrawn)


def read_columns(line, table, most, undrawn=None):
    """COLUMN or (COLUMN, ...): the numbers of columns of a table; without undrawn all are drawn."""
    if not line.accept("("):
        return [read_column(line, table, undrawn)]
    columns = [read_column(line, table, undrawn)]
    while line.accept(","):
        columns.append(read_column(line, table, undrawn))
    line.require(")", "',' or ')'")
    if len(columns) > most:
        line.fail(f"expected at most {most} columns, found {len(columns)}")
    return columns


def read_clauses(line, key):
    """[windowed] [match MATCH] [on delete ACTION] [on update ACTION] [deferred]"""
    key.windowed = line.accept("windowed")
    if line.accept("match"):
        key.match = read_choice(line, MATCHES)
    if line.accept("on delete"):
        key.on_delete = read_choice(line, ACTIONS)
    if line.accept("on update"):
        key.on_update = read_choice(line, ACTIONS)
    key.deferred = line.accept("deferred")
    if line.peek() is not None:
        clauses = "'windowed', 'match', 'on delete', 'on update', 'deferred'"
        line.expected(f"{clauses} in this order, each at most once")
    if key.windowed:
        check_windowed(line, key)


def check_windowed(line, key):
    """A windowed key has a day beside its other columns, and no action changes a child row."""
    if not key.has_window_columns():
        least, found = LEAST_WINDOW_COLUMNS, len(key.child_columns)
        line.fail(f"expected at least {least} columns in a windowed key, the last a day, found {found}")
    for clause, action in (("on delete", key.on_delete), ("on update", key.on_update)):
        if action >= len(WINDOW_ACTIONS):
            allowed, found = " or ".join(WINDOW_ACTIONS), ACTIONS[action]
            line.fail(f"expected {allowed} after {clause!r} in a windowed key, found {found!r}")


def read_choice(line, phrases):
    """The number of the phrase that comes next."""
    for number, phrase in enumerate(phrases):
        if line.accept(phrase):
            return number
    return line.expected("one of " + ", ".join(phrases))


def read_value(line):
    """A name in quotes, null, which is None, or a whole number of 64 bits."""
    if line.at_quote():
        return read_name(line)
    if line.accept("null"):
        return None
    return line.number("a name in quotes, null or a whole number", LEAST_WORD, MOST_WORD)


def read_name(line):
    """The value of the name that comes next in quotes."""
    name = line.quoted()
    fault = name_fault(name)
    if fault:
        line.fail(fault)
    return name_value(name)
