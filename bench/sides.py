"""hoofrun and SQLite's side, run one after the other on the same bytes, their answers compared."""

import subprocess
import sys
import time
from pathlib import Path

RUNS = 3
SCHEMA_LENGTH_AT = 14
CALL_BYTES = 96
STATEMENT_KINDS = (1, 2, 3, 10, 11)


class Sides:
    """The two programs; each answers the seconds that an input took and what it printed."""

    def __init__(self, hoofrun, sqlite_side, folder):
        self.programs = hoofrun, sqlite_side
        self.version = ""
        self.changed = 0  # rows that the statements of the last input changed
        self.input, self.output = Path(folder) / "input.bin", Path(folder) / "answers.txt"

    def run(self, program):
        """Runs a program on the input: seconds, lines, standard error."""
        with open(self.input, "rb") as source, open(self.output, "wb") as sink:
            start = time.perf_counter()
            done = subprocess.run(
                [program], stdin=source, stdout=sink, stderr=subprocess.PIPE, check=True
            )
            seconds = time.perf_counter() - start
        return seconds, self.output.read_text().splitlines(), done.stderr

    def hoofrun(self):
        """hoofrun from start to end: starting, reading and printing are in its time."""
        seconds, lines, _ = self.run(self.programs[0])
        return seconds, [line.split(",") for line in lines[1:-1]]

    def sqlite(self):
        """SQLite by its own clock: only the calls are in its time."""
        _, lines, told = self.run(self.programs[1])
        seconds, self.version = told.decode().split()
        return float(seconds), [line.split(",") for line in lines]

    def best(self, data, runs=RUNS):
        """The best seconds of both, one after the other on the same bytes."""
        self.input.write_bytes(data)
        times = []
        for _ in range(runs):
            ours, our_answers = self.hoofrun()
            theirs, their_answers = self.sqlite()
            times.append((ours, theirs))
        self.compare(data, our_answers, their_answers)
        return tuple(map(min, zip(*times)))

    def compare(self, data, ours, theirs):
        """Both must accept the same calls, and statements must change as many rows."""
        at = int.from_bytes(data[SCHEMA_LENGTH_AT : SCHEMA_LENGTH_AT + 2], "little")
        kinds = [data[i] for i in range(at, len(data), CALL_BYTES)]
        if not len(kinds) == len(ours) == len(theirs):
            sys.exit(f"measure: {len(kinds)} calls, {len(ours)} and {len(theirs)} answers")
        for number, (kind, our, their) in enumerate(zip(kinds, ours, theirs)):
            agree = (our[0] == "0") == (their[0] == "accepted")
            if kind in STATEMENT_KINDS:
                agree = agree and our[1] == their[1]
            if not agree:
                sys.exit(f"measure: call {number} has answers {our} and {their}")
        self.changed = sum(int(our[1]) for kind, our in zip(kinds, ours) if kind in STATEMENT_KINDS)
