"""Loads on sensors by name: readings name their sensor, and where names are folded, in any spelling."""

import random

from inputs import INSERT, Yard, name_value
from loads import CASCADE

HOOVES = ("Lf", "Rf", "Lh", "Rh")
NAME, SENSOR = 0, 1  # columns of a sensor and of a reading

NAMES = """\
table sensors rows {sensors}
  column name {folded} not null unique
table readings rows {readings}
  column number not null unique
  column sensor {folded}
{keys}journal {journal}
"""


def names_text(sensors, readings, journal, folded="folded", keys=1, deferred=""):
    """Sensors and readings tied by one key or equal ones, whose columns are both folded, or neither is."""
    key = f"key readings.sensor -> sensors.name {CASCADE} {deferred}\n"
    return NAMES.format(
        sensors=sensors, readings=readings, journal=journal, keys=key * keys, folded=folded
    )


def name_of(number, beginnings=HOOVES):
    """The name that a number tells, one of the beginnings with a number after it, such as Lf2."""
    return beginnings[number % len(beginnings)] + str(number // len(beginnings))


class Spelled(Yard):
    """Sensors in the place of horses, readings in that of trims; a name comes first in a sensor's key.

    Where the names are folded each is spelled anew wherever it is given: a sensor that is written again is
    respelled. The calls are the same otherwise.
    """

    def __init__(self, text, seed):
        super().__init__(text, seed)
        self.spelling = random.Random(seed)
        self.folded = self.calls.schema.tables[self.HORSES].columns[NAME].folded

    def spelled(self, name):
        """A name as a value, in some spelling."""
        if self.folded:
            name = "".join(self.spelling.choice((letter.lower(), letter.upper())) for letter in name)
        return name_value(name)

    def second_sensor(self):
        """Enters a sensor with a key that another one has: refused."""
        vacant = [row for row in range(self.sizes[self.HORSES]) if row not in self.horses]
        if vacant:
            self.calls.add(INSERT, self.HORSES, vacant[0], self.key_of(self.any_number()))


class Named(Spelled):
    """Readings name their sensor; a sensor's number tells its name."""

    def key_of(self, number):
        """The name in some spelling."""
        return [self.spelled(name_of(number))]

    def find_readings(self):
        """Finds the readings of a sensor by its name; they are moved to another sensor or deleted."""
        old, new = self.any_number(), self.any_number()
        sought, rows = (SENSOR, *self.key_of(old)), self.trims_of(old)
        self.used += len(rows)
        if self.random.random() < 0.7:
            self.calls.add_where(self.TRIMS, sought, (SENSOR, *self.key_of(new)))
            self.trims.update(dict.fromkeys(rows, new))
        else:
            self.calls.add_where(self.TRIMS, sought)
            for row in rows:
                del self.trims[row]

    def statement(self):
        """A second sensor of a name, readings found by a name, or a statement on one row."""
        choice = self.random.random()
        if choice < 0.03 and self.horses:
            self.second_sensor()
        elif choice < 0.1 and self.horses:
            self.find_readings()
        else:
            super().statement()
