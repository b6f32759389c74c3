"""Loads on a windowed key: a reading belongs to the calibration of its sensor in force on its day."""

import random

from inputs import BEGIN, COMMIT, DELETE, INSERT, ROLLBACK, UPDATE, Calls

CALIBRATIONS, READINGS = 0, 1
CALIBRATION_ROWS, READING_ROWS, JOURNAL = 950, 900, 40
SLOT = 24  # days from the first day of a calibration to that of the next, at first
RESTRICT = "on delete restrict on update restrict"
NUMBER = "  column number not null unique\n"

TEXT = """\
table calibrations rows {calibrations}
  column sensor not null
  column first not null
  column end not null
  unique (sensor, first)
table readings rows {readings}
{number}  column sensor
  column day
key readings.(sensor, day) -> calibrations.(sensor, first) windowed {clauses}
journal {journal}
"""


def windows_text(calibrations, readings, journal, clauses="", number=NUMBER):
    """Calibrations and readings, which have a number or none, tied by a windowed key with these clauses."""
    return TEXT.format(
        calibrations=calibrations, readings=readings, journal=journal, clauses=clauses, number=number
    )


class Calibrated:
    """Sends calls and knows which calibrations and readings they leave."""

    def __init__(self, seed, sensors, windows, clauses=""):
        self.calls = Calls(windows_text(CALIBRATION_ROWS, READING_ROWS, JOURNAL, clauses))
        self.random = random.Random(seed)
        self.sensors, self.windows = sensors, windows  # how many sensors, and calibrations of each
        self.calibrations = {}  # row: sensor, first day, end
        self.readings = {}  # row: sensor, day

    def fill(self):
        """So many calibrations of each sensor, some of which touch, and readings in two thirds of the rows."""
        starts = [(sensor, SLOT * i) for sensor in range(self.sensors) for i in range(self.windows)]
        self.random.shuffle(starts)
        for row, (sensor, first) in enumerate(starts):
            self.put_calibration(row, sensor, first, first + self.random.randint(SLOT - 4, SLOT))
        for row in range(READING_ROWS * 2 // 3):
            self.put_reading(row, *self.day_in_force())

    def in_force(self, sensor, day):
        """Whether the sensor has a calibration on a day."""
        return any(
            its == sensor and first <= day < end for its, first, end in self.calibrations.values()
        )

    def is_free(self, row, sensor, first, end):
        """Whether days have no calibration of the sensor but that of the row."""
        return not any(
            its == sensor and first < its_end and its_first < end and other != row
            for other, (its, its_first, its_end) in self.calibrations.items()
        )

    def days_of(self, row):
        """The days of the readings that belong to a calibration, rising."""
        sensor, first, end = self.calibrations[row]
        return sorted(day for its, day in self.readings.values() if its == sensor and first <= day < end)

    def put_calibration(self, row, sensor, first, end):
        """Enters a calibration or writes it anew; a bad window, or a reading left out, is refused."""
        kind = UPDATE if row in self.calibrations else INSERT
        self.calls.add(kind, CALIBRATIONS, row, [sensor, first, end])
        days = self.days_of(row) if kind == UPDATE else []
        keeps = all(first <= day < end for day in days)
        if first < end and keeps and self.is_free(row, sensor, first, end):
            self.calibrations[row] = sensor, first, end

    def delete_calibration(self, row):
        """Deletes a calibration; one with readings is refused."""
        self.calls.add(DELETE, CALIBRATIONS, row)
        if not self.days_of(row):
            del self.calibrations[row]

    def put_reading(self, row, sensor, day):
        """Enters a reading or moves it; a day without a calibration is refused."""
        kind = UPDATE if row in self.readings else INSERT
        self.calls.add(kind, READINGS, row, [row, sensor, day])
        if self.in_force(sensor, day):
            self.readings[row] = sensor, day

    def delete_reading(self, row):
        """Deletes a reading."""
        self.calls.add(DELETE, READINGS, row)
        del self.readings[row]

    def some_calibration(self):
        """The row of some calibration."""
        return self.random.choice(list(self.calibrations))

    def day_in_force(self):
        """A sensor and a day of some calibration; at times its end, which may be a day of the next."""
        sensor, first, end = self.calibrations[self.some_calibration()]
        if self.random.random() < 0.05:
            return sensor, end
        return sensor, self.random.randrange(first, end)

    def next_first(self, row):
        """The first day of the next calibration of the same sensor."""
        sensor, first, _ = self.calibrations[row]
        later = [its for other, its, _ in self.calibrations.values() if other == sensor and its > first]
        return min(later, default=SLOT * self.windows)

    def shorten(self):
        """An end is moved to an earlier day, mostly not past the last reading; past it is refused."""
        row = self.some_calibration()
        sensor, first, end = self.calibrations[row]
        keep = max(self.days_of(row), default=first) if self.random.random() < 0.8 else first
        self.put_calibration(row, sensor, first, self.random.randint(keep + 1, end))

    def lengthen(self):
        """An end is moved to a later day, mostly up to the next calibration; into it is refused."""
        row = self.some_calibration()
        sensor, first, end = self.calibrations[row]
        latest = max(end, self.next_first(row))
        end = latest + 1 if self.random.random() < 0.2 else self.random.randint(end, latest)
        self.put_calibration(row, sensor, first, end)

    def enter_calibration(self):
        """A calibration is entered after some other one, if a day is free there: else it is refused."""
        row = next(row for row in range(CALIBRATION_ROWS) if row not in self.calibrations)
        before = self.some_calibration()
        sensor, _, first = self.calibrations[before]
        self.put_calibration(row, sensor, first, max(first + 1, self.next_first(before)))

    def change_reading(self):
        """A reading is entered, moved, written again or deleted."""
        row, choice = self.random.randrange(READING_ROWS), self.random.random()
        if row not in self.readings or choice < 0.4:
            self.put_reading(row, *self.day_in_force())
        elif choice < 0.65:
            self.put_reading(row, *self.readings[row])
        else:
            self.delete_reading(row)

    def statement(self):
        """Half of the statements are on readings, the others on calibrations."""
        choice = self.random.random()
        if choice < 0.5:
            self.change_reading()
        elif choice < 0.64:
            self.shorten()
        elif choice < 0.78:
            self.lengthen()
        elif choice < 0.9 and len(self.calibrations) < CALIBRATION_ROWS:
            self.enter_calibration()
        else:
            self.delete_calibration(self.some_calibration())

    def transaction(self):
        """As many statements as the journal surely holds, committed or rolled back."""
        before = dict(self.calibrations), dict(self.readings)
        self.calls.add(BEGIN)
        for _ in range(self.random.randint(JOURNAL // 4, JOURNAL)):
            self.statement()
        end = self.random.choice((COMMIT, COMMIT, COMMIT, ROLLBACK))
        if end == ROLLBACK:
            self.calibrations, self.readings = before
        self.calls.add(end)


def calibrated(book, act, count):
    """An act of the book, such as Calibrated.statement, again and again."""
    book.fill()
    while len(book.calls) < count:
        act(book)
    return book.calls


def one_window(count):
    """A calibration has 500 readings; its end is moved again and again, and no reading is left out."""
    calls = Calls(windows_text(4, 500, JOURNAL, RESTRICT))
    calls.add(INSERT, CALIBRATIONS, 0, [0, 0, 600])
    for row in range(500):
        calls.add(INSERT, READINGS, row, [row, 0, row])
    while len(calls) < count:
        calls.add(UPDATE, CALIBRATIONS, 0, [0, 0, 500 + len(calls) % 100])
    return calls
