"""A load on 32 foreign keys: four parent tables, four child tables of eight keys each, all five actions."""

import random

from inputs import BEGIN, COMMIT, DELETE, INSERT, UPDATE, Calls

PARENTS = ("horses", "sensors", "farriers", "yards")
CHILDREN = ("trims", "readings", "visits", "bills")
PARENT_ROWS, CHILD_ROWS, COLUMNS, JOURNAL = 40, 30, 8, 300
ON_DELETE = ("cascade", "set null", "set default", "no action") * 2
ON_DELETE_OF_BILLS = ("set null", "restrict", "cascade", "set default") * 2
ON_UPDATE = ("cascade", "set null")
DEFAULT = 1  # the number of row 0 of each parent table, which stays


def parent_of(child, column):
    """The parent table of a child's column."""
    return (child + column) % len(PARENTS)


def on_delete(child, column):
    """The on-delete action of a child's column."""
    return (ON_DELETE_OF_BILLS if CHILDREN[child] == "bills" else ON_DELETE)[column]


def on_update(column):
    """The on-update action of a column."""
    return ON_UPDATE[column // 2 % 2]


def schema_text():
    """The tables, and the 32 keys; every second one is deferred."""
    lines = []
    for name in PARENTS:
        lines += [f"table {name} rows {PARENT_ROWS}", "  column number not null unique", "  column note"]
    for name in CHILDREN:
        lines.append(f"table {name} rows {CHILD_ROWS}")
        lines += [f"  column k{column} default {DEFAULT}" for column in range(COLUMNS)]
    for child, name in enumerate(CHILDREN):
        for column in range(COLUMNS):
            key = f"key {name}.k{column} -> {PARENTS[parent_of(child, column)]}.number"
            key += f" on delete {on_delete(child, column)} on update {on_update(column)}"
            lines.append(key + " deferred" * (column % 2))
    return "\n".join(lines + [f"journal {JOURNAL}"]) + "\n"


class Ties:
    """Sends calls and knows which rows and values they leave."""

    def __init__(self, seed):
        self.calls = Calls(schema_text())
        self.random = random.Random(seed)
        self.parents = [{0: DEFAULT} for _ in PARENTS]  # row: number
        self.children = [{} for _ in CHILDREN]  # row: numbers of parents
        self.last_number = DEFAULT
        self.used = 0
        for table in range(len(PARENTS)):
            self.calls.add(INSERT, table, 0, [DEFAULT, 0])

    def referring(self, parent, number, actions):
        """The keys with one of these on-delete actions by which a row has the number."""
        for child, rows in enumerate(self.children):
            for column in range(COLUMNS):
                if parent_of(child, column) == parent and on_delete(child, column) in actions:
                    for row in sorted(rows):
                        if row in rows and rows[row][column] == number:
                            yield child, column, row

    def follow(self, parent, old, new):
        """What the actions do after a number was changed, or deleted where new is None."""
        every = set(ON_DELETE + ON_DELETE_OF_BILLS)
        for child, column, row in self.referring(parent, old, every):
            action = on_update(column) if new is not None else on_delete(child, column)
            self.used += 1
            if action == "cascade" and new is None:
                del self.children[child][row]
            else:
                values = {"cascade": new, "set null": None, "set default": DEFAULT}
                self.children[child][row][column] = values[action]

    def put_parent(self, parent, row):
        """Enters or renumbers a row of a parent table."""
        old = self.parents[parent].get(row)
        self.last_number += 1
        kind = INSERT if old is None else UPDATE
        self.calls.add(kind, parent, row, [self.last_number, self.random.randrange(9)])
        self.parents[parent][row] = self.last_number
        if old is not None:
            self.follow(parent, old, self.last_number)

    def delete_parent(self, parent, row):
        """Deletes a row of a parent table unless a key would refuse it."""
        number = self.parents[parent].get(row)
        held = any(True for _ in self.referring(parent, number, ("no action", "restrict")))
        if number is not None and not held:
            self.calls.add(DELETE, parent, row)
            del self.parents[parent][row]
            self.follow(parent, number, None)

    def put_child(self, child, row):
        """Enters a row of a child table, or writes it anew."""
        values = []
        for column in range(COLUMNS):
            numbers = list(self.parents[parent_of(child, column)].values())
            values.append(self.random.choice(numbers) if self.random.random() < 0.6 else None)
        kind = UPDATE if row in self.children[child] else INSERT
        self.calls.add(kind, len(PARENTS) + child, row, values)
        self.children[child][row] = values

    def statement(self):
        """A statement on some row."""
        table, choice = self.random.randrange(4), self.random.random()
        parent_row = self.random.randrange(1, PARENT_ROWS)
        child_row = self.random.randrange(CHILD_ROWS)
        self.used += 1
        if choice < 0.25:
            self.put_parent(table, parent_row)
        elif choice < 0.45:
            self.delete_parent(table, parent_row)
        elif choice < 0.9:
            self.put_child(table, child_row)
        else:  # refused now and then: the row is vacant
            self.calls.add(DELETE, len(PARENTS) + table, child_row)
            self.children[table].pop(child_row, None)


def ties(count):
    """Statements in and outside transactions."""
    load = Ties(4)
    while len(load.calls) < count:
        load.used = 0
        if load.random.random() < 0.7:
            load.statement()
            continue
        load.calls.add(BEGIN)
        for _ in range(load.random.randint(2, 12)):
            if load.used < 50:
                load.statement()
        load.calls.add(COMMIT)
    return load.calls
