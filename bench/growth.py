"""How the cost of one statement grows with the rows of its tables."""

from functools import partial

from inputs import BEGIN, DELETE, INSERT, ROLLBACK, UPDATE, Calls
from loads import trims_text
from windows import CALIBRATIONS, READINGS, SLOT, windows_text

ROWS = (32, 128, 512, 1024)
BATCH = 8  # statements of a transaction, which is rolled back
LEAST_SECONDS = 0.03  # what the statements of one measurement take at least, if they are not too many
MOST_BATCHES = 6400
HORSES, TRIMS = 0, 1
HORSE = 1  # column of a trim

# Each statement on row r. The last horses have no trims, so that no action changes a second row.
STATEMENTS = {
    "insert trim": (INSERT, TRIMS, lambda r: [r, 0]),
    "update trim": (UPDATE, TRIMS, lambda r: [r, 1]),
    "delete trim": (DELETE, TRIMS, lambda r: []),
    "insert horse": (INSERT, HORSES, lambda r: [r]),
    "update horse": (UPDATE, HORSES, lambda r: [r + 5000]),
    "delete horse": (DELETE, HORSES, lambda r: []),
}

WINDOWS = 50  # calibrations of a sensor


def calibration(row, days=SLOT - 4):
    """The calibration of a row, in force for so many days."""
    sensor, place = divmod(row, WINDOWS)
    return [sensor, SLOT * place, SLOT * place + days]


def reading_in(row):
    """A reading of the last day of a row's calibration."""
    sensor, _, end = calibration(row)
    return [sensor, end - 1]


# Likewise; SQLite keeps the rules of the windowed key by triggers. The last calibrations have no readings.
WINDOW_STATEMENTS = {
    "insert reading": (INSERT, READINGS, lambda r: reading_in(r // 2)),
    "insert calibration": (INSERT, CALIBRATIONS, calibration),
    "move its end": (UPDATE, CALIBRATIONS, lambda r: calibration(r, SLOT)),
    "delete calibration": (DELETE, CALIBRATIONS, lambda r: []),
}

# The horse that is sought in an update of all its trims; no trim has it.
SEARCHES = {"find no trim": -1, "find no NULL": None}


def filled(rows):
    """Tables with all but the last BATCH rows live; the trims belong to the first half of the horses."""
    calls = Calls(trims_text(rows, rows, BATCH))
    live = rows - BATCH
    for row in range(live):
        calls.add(INSERT, HORSES, row, [row])
    for row in range(live):
        calls.add(INSERT, TRIMS, row, [row, row % (live // 2)])
    return calls


def filled_windows(rows):
    """Likewise calibrations, and readings of the first half of them."""
    calls = Calls(windows_text(rows, rows, BATCH, number=""))
    live = rows - BATCH
    for row in range(live):
        calls.add(INSERT, CALIBRATIONS, row, calibration(row))
    for row in range(live):
        calls.add(INSERT, READINGS, row, reading_in(row % (live // 2)))
    return calls


def add_statement(calls, rows, statement, i):
    """The statement of number i in its transaction."""
    if statement in SEARCHES:
        calls.add_where(TRIMS, (HORSE, SEARCHES[statement]), (HORSE, 0))
    else:
        kind, table, values = (STATEMENTS | WINDOW_STATEMENTS)[statement]
        row = rows - 1 - i if kind == INSERT else rows - BATCH - 1 - i
        calls.add(kind, table, row, values(row))


def growing_book(rows, statement):
    """The calls that fill the tables, and what adds a statement of a given number to them."""
    calls = filled_windows(rows) if statement in WINDOW_STATEMENTS else filled(rows)
    return calls, partial(add_statement, calls, rows, statement)


def batches(book, count, statements=BATCH):
    """The calls of a book, then so many transactions of its statements that are rolled back."""
    calls, add = book()
    for _ in range(count):
        calls.add(BEGIN)
        for i in range(statements):
            add(i)
        calls.add(ROLLBACK)
    return calls.to_bytes()


def seconds(sides, book, count, runs):
    """What the statements of so many batches take, with their undo, on each side."""
    whole = sides.best(batches(book, count), runs)
    empty = sides.best(batches(book, count, 0), runs)
    return [a - b for a, b in zip(whole, empty)]


def cost(sides, book):
    """Nanoseconds of one statement with its undo, on each side."""
    count = 25
    while count < MOST_BATCHES and min(seconds(sides, book, count, 1)) < LEAST_SECONDS:
        count *= 4
    return [spent / (count * BATCH) * 1e9 for spent in seconds(sides, book, count, 3)]


def print_growth(sides):
    """Two lines for each statement, hoofrun's and SQLite's cost at each number of rows."""
    print(f"{'nanoseconds a statement':32}" + "".join(f"{f'R = {rows:,}':>12}" for rows in ROWS))
    for statement in (*STATEMENTS, *SEARCHES, *WINDOW_STATEMENTS):
        costs = zip(*[cost(sides, partial(growing_book, rows, statement)) for rows in ROWS])
        for side, line in zip(("hoofrun", "SQLite"), costs):
            print(f"{statement:20}{side:12}" + "".join(f"{ns:12,.0f}" for ns in line), flush=True)
