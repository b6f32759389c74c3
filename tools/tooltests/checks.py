"""Counting checks, and running the command line tool."""

import os
import subprocess
import sys
import tempfile
from pathlib import Path

TOOL = Path(__file__).resolve().parents[1] / "hooftext.py"


class Checks:
    """Counts checks and tells those that fail."""

    def __init__(self):
        self.passed = self.failed = 0

    def check(self, name, holds, detail=""):
        """Counts one check."""
        if holds:
            self.passed += 1
        else:
            self.failed += 1
            print(f"failed: {name} {detail}".rstrip())


def tool(*arguments, data=b"", **environment):
    """Runs the command line tool: status, standard output, standard error."""
    done = subprocess.run(
        [sys.executable, str(TOOL), *arguments],
        input=data, capture_output=True, check=False, env={**os.environ, **environment},
    )
    return done.returncode, done.stdout, done.stderr.decode()


def tool_with_hoofask(printed, command, text):
    """Runs a command on a text, with a program in hoofask's place that prints this: as tool does."""
    with tempfile.TemporaryDirectory() as folder:
        program = Path(folder) / "hoofask"
        program.write_text(f"#!/bin/sh\nprintf '{printed}\\n'\n", encoding="ascii")
        program.chmod(0o755)
        return tool(command, "-", data=text.encode(), HOOFASK=str(program))
