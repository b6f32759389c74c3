"""Loads on a half-drawn book: horses and trims are finished, the keys from readings to sensors are broken."""

from inputs import DELETE, INSERT, UPDATE, Yard
from loads import CASCADE

KEYS = 8  # from a reading to its sensors, whose number is not unique
SENSOR_ROWS, READING_ROWS = 1000, 100
ENTERED = 0.08  # share of the statements that enter a sensor, while there is room

TEXT = """\
table horses rows 600
  column number not null unique
table trims rows 700
  column number not null unique
  column horse
table sensors rows {sensors}
  column number not null
table readings rows {readings}
{columns}key trims.horse -> horses.number {cascade}
{keys}journal 64
"""


def half_drawn_text():
    """Horses and trims, and the sensors to which the keys of the readings refer."""
    columns = [f"sensor{key}" for key in range(KEYS)]
    return TEXT.format(
        sensors=SENSOR_ROWS, readings=READING_ROWS, cascade=CASCADE,
        columns="".join(f"  column {column}\n" for column in columns),
        keys="".join(f"key readings.{column} -> sensors.number {CASCADE}\n" for column in columns),
    )


class HalfDrawn(Yard):
    """Horses and trims, and sensors that can be entered; a share of the statements uses a broken key."""

    SENSORS, READINGS = 2, 3

    def __init__(self, seed, refused):
        super().__init__(half_drawn_text(), seed)
        self.refused = refused
        self.sensors = 0  # as many rows as are live, from row 0 on

    def fill(self):
        """Horses and trims in two thirds of the rows, sensors in a fifth."""
        super().fill()
        for _ in range(SENSOR_ROWS // 5):
            self.enter_sensor()

    def enter_sensor(self):
        """A row of the table that broken keys refer to."""
        self.calls.add(INSERT, self.SENSORS, self.sensors, [self.random.randrange(99)])
        self.sensors += 1

    def use_broken_key(self):
        """Enters a reading, changes a sensor or deletes it: refused."""
        kind, sensor = self.random.choice((INSERT, UPDATE, DELETE)), self.random.randrange(self.sensors)
        if kind == INSERT:
            row, values = self.random.randrange(READING_ROWS), [self.random.randrange(99)] * KEYS
            self.calls.add(INSERT, self.READINGS, row, values)
        else:
            self.calls.add(kind, self.SENSORS, sensor, [7] if kind == UPDATE else [])

    def statement(self):
        """A refused statement, a sensor that is entered, or a statement on horses and trims."""
        choice = self.random.random()
        if choice < self.refused:
            self.use_broken_key()
        elif choice > 1 - ENTERED and self.sensors < SENSOR_ROWS:
            self.enter_sensor()
        else:
            super().statement()
