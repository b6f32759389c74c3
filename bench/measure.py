"""Measures hoofrun and SQLite on the same bytes and prints three tables."""

import math
import sys

from growth import print_growth
from half_drawn import HalfDrawn
from inputs import Yard
from loads import autocommit, empty_transactions, herd, pedigree, sixteen_tables, transactions
from loads import trims_text, two_columns_text
from names import Named, names_text
from pairs import NamedPairs, Pairs, pairs_text
from readings import NUMBER, VALUE, Kit, readings
from scans import print_scans
from sides import Sides
from ties import ties
from windows import RESTRICT, Calibrated, calibrated, one_window


def loads(count):
    """Pairs of a name and the calls; a star: made for SQLite to win; a plus: SQLite works by triggers."""
    yield "30 rows, autocommit", autocommit(Yard(trims_text(30, 30, 64), 1), count)
    yield "30 rows, transactions", transactions(Yard(trims_text(30, 30, 128), 2), count, 24)
    yield "200 rows, autocommit", autocommit(Yard(trims_text(200, 200, 64), 3), count)
    yield "1,000 rows, autocommit", autocommit(Yard(trims_text(1000, 1000, 64), 4), count)
    yield "1,000 rows, transactions", transactions(Yard(trims_text(1000, 1000, 280), 5), count, 60)
    deferred = trims_text(600, 700, 190, spare=2, deferred="deferred")
    yield "600 rows, deferred", transactions(Yard(deferred, 6, spare_columns=2), count, 40, True)
    yield "pedigree of depth 16", pedigree(count)
    yield "16 tables, depth 16", sixteen_tables(count)
    yield "32 keys, all actions", ties(count)
    yield "readings moved, autocommit", readings(Kit(NUMBER, 11), Kit.statement, count)
    yield "readings moved, transactions", readings(Kit(NUMBER, 12), Kit.transaction, count)
    yield "readings without a sensor", readings(Kit(NUMBER, 13), Kit.take_off, count)
    yield "readings without a number", readings(Kit(VALUE, 14), Kit.statement, count)
    yield "match full, autocommit", autocommit(Pairs(pairs_text(600, 900, 64), 17), count)
    half_filled = Pairs(pairs_text(600, 900, 200, deferred="deferred"), 18)
    yield "match full, half-filled", transactions(half_filled, count, 40, True)
    yield "half-drawn, finished tables", autocommit(HalfDrawn(19, 0), count)
    yield "folded names, autocommit", autocommit(Named(names_text(250, 1000, 120), 21), count)
    plain = Named(names_text(250, 1000, 120, folded=""), 21)
    yield "the same in one spelling", autocommit(plain, count)
    folded_pairs = NamedPairs(pairs_text(250, 900, 64, match="simple", folded="folded"), 23)
    yield "folded pairs, autocommit", autocommit(folded_pairs, count)
    yield "+ calibration windows", calibrated(Calibrated(24, 18, 50), Calibrated.statement, count)
    restrict = Calibrated(25, 18, 50, RESTRICT)
    yield "+ windows, transactions", calibrated(restrict, Calibrated.transaction, count)
    yield "* 32 equal keys, 900 rows", autocommit(Yard(trims_text(900, 900, 64, keys=32), 7), count)
    two_columns = Yard(two_columns_text(900, 900, 150), 8, yard_column=True)
    yield "* constant first column", autocommit(two_columns, count)
    yield "* J = 750, long transactions", transactions(Yard(trims_text(60, 75, 750), 9), count, 700)
    # so short that at `count` calls the program's start would be most of its time
    empty = empty_transactions(Yard(trims_text(60, 75, 750), 10), 10 * count)
    yield "* J = 750, empty transactions", empty
    yield "* 500 rows follow a parent", herd(Yard(trims_text(4, 500, 510), 5), count)
    two_columns = Yard(two_columns_text(4, 500, 510), 16, yard_column=True)
    yield "* 500 rows follow, two columns", herd(two_columns, count)
    yield "* 500 rows follow a name", herd(Named(names_text(4, 500, 510), 22), count)
    yield "* one reading or none found", readings(Kit(NUMBER, 15), Kit.single_readings, count)
    yield "* half-drawn, half refused", autocommit(HalfDrawn(20, 0.5), count)
    one_sensor = Calibrated(26, 1, 900)
    yield "*+ one sensor, 900 windows", calibrated(one_sensor, Calibrated.statement, count)
    yield "*+ 500 readings in a window", one_window(count)


def print_loads(sides, count):
    """One line for each input, and the geometric mean of the ratios."""
    print(f"{'calls a second':30}{'calls':>8}{'rows':>9}{'hoofrun':>13}{'SQLite':>13}{'ratio':>8}")
    logarithms = []
    for name, calls in loads(count):
        ours, theirs = sides.best(calls.to_bytes())
        logarithms.append(math.log(theirs / ours))
        rates = f"{len(calls) / ours:13,.0f}{len(calls) / theirs:13,.0f}"
        print(f"{name:30}{len(calls):8,}{sides.changed:9,}{rates}{theirs / ours:8.2f}", flush=True)
    mean = math.exp(sum(logarithms) / len(logarithms))
    print(f"{'geometric mean':73}{mean:8.2f}")
    print("* made for SQLite to win. + SQLite has no windowed key: triggers do its work there.")
    print(f"SQLite is {sides.version}, in memory.")


def main():
    """measure.py HOOFRUN SQLITE_SIDE FOLDER CALLS"""
    if len(sys.argv) != 5:
        sys.exit("usage: measure.py HOOFRUN SQLITE_SIDE FOLDER CALLS")
    sides = Sides(*sys.argv[1:4])
    print_loads(sides, int(sys.argv[4]))
    print()
    print_growth(sides)
    print()
    print_scans(sides)


if __name__ == "__main__":
    main()
