"""The programs that read a book's bytes: hoofrun and hoofask."""

import os
import subprocess
from dataclasses import dataclass
from pathlib import Path

ROOT = Path(__file__).resolve().parents[2]


class ProgramError(Exception):
    """A program cannot be run, or does not print what it should."""


@dataclass(frozen=True)
class Program:
    """A program: its name, where it is built, and by which command."""

    name: str
    built: Path
    builder: str

    def variable(self):
        """The variable that names another path."""
        return self.name.upper()

    def path(self):
        """The path that the variable names, or that of the one that is built."""
        return os.environ.get(self.variable()) or str(self.built)

    def run(self, data, form, *arguments):
        """Runs the program on bytes; gives what it prints as a match of the form."""
        path = self.path()
        try:
            done = subprocess.run([path, *arguments], input=data, capture_output=True, check=True)
        except (OSError, subprocess.CalledProcessError) as error:
            told = f"cannot run {self.name}: {error}"
            helped = f"'{self.builder}' builds it, or set {self.variable()} to its path"
            raise ProgramError(f"{told}; {helped}") from error
        printed = form.fullmatch(done.stdout.decode("ascii", "replace"))
        if not printed:
            raise ProgramError(f"{path} does not print the lines of {self.name}")
        return printed


HOOFRUN = Program("hoofrun", ROOT / "crates" / "hoofrun" / "out" / "hoofrun", "./run-example.sh")
HOOFASK = Program("hoofask", ROOT / "target" / "hoofask", "tools/build.sh")


def numbers_in(lines):
    """The numbers of each line, as tuples."""
    return [tuple(map(int, line.split(","))) for line in lines.splitlines()]
