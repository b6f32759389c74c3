"""Loads of statements for many rows: the readings of a sensor are moved to another one or deleted."""

import random

from inputs import BEGIN, COMMIT, INSERT, ROLLBACK, Calls
from loads import CASCADE

SHARES = (10, 20, 30, 40, 55, 70, 85, 100, 120, 140, 160, 170)  # readings of each sensor that has some
SENSOR_ROWS, JOURNAL = 16, 450
SENSORS, READINGS = 0, 1
FIRST, SENSOR = 0, 1  # columns of a reading; the first is a value, or a number that no other reading has
MISSING = -1  # no sensor has this number

TEXT = f"""\
table sensors rows {SENSOR_ROWS}
  column number not null unique
table readings rows {sum(SHARES)}
  column {{first}}
  column sensor
key readings.sensor -> sensors.number {CASCADE}
journal {JOURNAL}
"""
VALUE, NUMBER = "value", "number not null unique"


class Kit:
    """Sensors and their readings: sends calls and knows which rows hold a sensor's readings."""

    def __init__(self, first, seed):
        self.calls = Calls(TEXT.format(first=first))
        self.random = random.Random(seed)
        self.used = 0  # journal records of the open transaction
        for sensor in range(SENSOR_ROWS):
            self.calls.add(INSERT, SENSORS, sensor, [sensor])
        rows = list(range(sum(SHARES)))
        self.random.shuffle(rows)
        self.rows = {}  # sensor, or None for NULL: rows of its readings
        for sensor, share in enumerate(SHARES):
            self.rows[sensor] = [rows.pop() for _ in range(share)]
            self.enter(sensor)

    def enter(self, sensor):
        """Enters the readings of a sensor one by one."""
        for row in self.rows[sensor]:
            self.calls.add(INSERT, READINGS, row, [row, sensor])
        self.used += len(self.rows[sensor])

    def some_sensor(self):
        """A sensor that has readings."""
        return self.random.choice(list(self.rows))

    def spare_sensor(self):
        """A sensor that has none."""
        return self.random.choice([sensor for sensor in range(SENSOR_ROWS) if sensor not in self.rows])

    def set_sensor(self, old, new):
        """The call that gives every reading of one sensor another one; None is NULL."""
        self.calls.add_where(READINGS, (SENSOR, old), (SENSOR, new))

    def move(self, old, new):
        """Moves the readings of a sensor to one that has none."""
        self.set_sensor(old, new)
        self.used += len(self.rows[old])
        self.rows[new] = self.rows.pop(old)

    def delete(self, sensor):
        """Deletes the readings of a sensor."""
        self.calls.add_where(READINGS, (SENSOR, sensor))
        self.used += len(self.rows[sensor])

    def statement(self):
        """Readings are moved, or deleted and entered again; at times a move is refused."""
        choice, sensor = self.random.random(), self.some_sensor()
        if choice < 0.05:  # refused: no such sensor
            self.set_sensor(sensor, MISSING)
        elif choice < 0.15:
            self.delete(sensor)
            self.enter(sensor)
        else:
            self.move(sensor, self.spare_sensor())

    def transaction(self):
        """As many statements as the journal surely holds, committed or rolled back."""
        before = dict(self.rows)
        self.used = 0
        self.calls.add(BEGIN)
        while self.used + 2 * max(SHARES) <= JOURNAL:
            self.statement()
        end = self.random.choice((COMMIT, COMMIT, COMMIT, ROLLBACK))
        if end == ROLLBACK:
            self.rows = before
        self.calls.add(end)

    def take_off(self):
        """A sensor is taken off its readings; they are given to another one, or deleted and entered again."""
        sensor = self.some_sensor()
        self.move(sensor, None)
        if self.random.random() < 0.1:
            self.delete(None)
            self.rows[sensor] = self.rows.pop(None)
            self.enter(sensor)
        else:
            self.move(None, self.spare_sensor())

    def one_reading(self):
        """Seeks a reading by a number, which every second time none has; whose it becomes is not followed."""
        number = self.random.randrange(2 * sum(SHARES))
        sensor = self.random.randrange(SENSOR_ROWS)
        self.calls.add_where(READINGS, (FIRST, number), (SENSOR, sensor))

    def single_readings(self):
        """A transaction of many statements that find one row or none."""
        self.calls.add(BEGIN)
        for _ in range(JOURNAL // 2):
            self.one_reading()
        self.calls.add(COMMIT)


def readings(kit, act, count):
    """An act of the kit, such as Kit.statement, again and again."""
    while len(kit.calls) < count:
        act(kit)
    return kit.calls
