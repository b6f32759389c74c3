"""Loads on a key of two columns: readings name their sensor by horse and hoof together."""

from inputs import COMMIT, Yard
from loads import CASCADE
from names import Spelled, name_of

HOOVES = 4
HORSE_NAMES = ("Ada", "Ida", "Max", "Tom")  # how they begin
EMPTY, HALF = -1, -2  # in place of a sensor's number: a reading whose pair is empty, or half-filled
MOST_HALF = 20  # half-filled readings at a time

PAIRS = """\
table sensors rows {sensors}
  column horse {folded} not null
  column hoof not null
  unique (horse, hoof)
table readings rows {readings}
  column number not null unique
  column horse {folded}
  column hoof
key readings.(horse, hoof) -> sensors.(horse, hoof) match {match} {cascade} {deferred}
journal {journal}
"""


def pairs_text(sensors, readings, journal, match="full", deferred="", folded=""):
    """Sensors and readings; both columns of the horse are folded, or neither, those of the hoof never."""
    return PAIRS.format(
        sensors=sensors, readings=readings, journal=journal, cascade=CASCADE,
        match=match, deferred=deferred, folded=folded,
    )


class Pairs(Yard):
    """Sensors in the place of horses, readings in that of trims; a sensor's number tells horse and hoof.

    The key is under MATCH FULL, and the pairs of some readings are empty or half-filled.
    """

    def key_of(self, number):
        """Horse and hoof; a half-filled pair has one of the two from some sensor."""
        if number == EMPTY:
            return [None, None]
        if number != HALF:
            return list(divmod(number, HOOVES))
        horse, hoof = divmod(super().any_number(), HOOVES)
        return self.random.choice(([horse, None], [None, hoof]))

    def any_number(self):
        """The number of some live sensor, or EMPTY for a third of the readings."""
        return EMPTY if self.random.random() < 1 / 3 else super().any_number()

    def half_filled(self):
        """The rows of half-filled readings."""
        return self.trims_of(HALF)

    def mend(self, row):
        """Fills or empties a half-filled reading."""
        self.put_trim(row, self.any_number())

    def half_statement(self):
        """A half-filled reading is mended, or some reading is entered half-filled or loses half its pair."""
        rows = self.half_filled()
        if len(rows) == MOST_HALF or (rows and self.random.random() < 0.4):
            self.mend(self.random.choice(rows))
        else:
            self.put_trim(self.random.randrange(self.sizes[self.TRIMS]), HALF)

    def statement(self):
        """In a transaction a third of the statements are about half-filled readings."""
        if self.levels and self.random.random() < 1 / 3:
            self.half_statement()
        else:
            super().statement()

    def close(self, kind):
        """Commits, after every half-filled reading is mended, or rolls back."""
        for row in self.half_filled() if kind == COMMIT else []:
            self.mend(row)
        super().close(kind)


class NamedPairs(Spelled):
    """Readings name their sensor by the horse's name and the hoof's number; no pair is empty."""

    def key_of(self, number):
        """The horse's name in some spelling, and the hoof."""
        horse, hoof = divmod(number, HOOVES)
        return [self.spelled(name_of(horse, HORSE_NAMES)), hoof]

    def statement(self):
        """A second sensor of a pair, or a statement on one row."""
        if self.random.random() < 0.03 and self.horses:
            self.second_sensor()
        else:
            super().statement()
