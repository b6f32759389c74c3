#!/usr/bin/env python3
"""Hoof books as text: encode for hoofrun, decode, run, list the orphans."""

import os
import sys

from booktext.line import Mistake
from booktext.orphans import orphans_text
from booktext.programs import ProgramError
from booktext.reader import read_text
from booktext.runner import run_text
from booktext.writer import text_of

USAGE = """\
usage: hooftext.py encode TEXT BYTES   turns a text of tables, keys and calls into hoofrun's bytes
       hooftext.py decode BYTES TEXT   turns such bytes into a text that encodes to them
       hooftext.py run TEXT            runs hoofrun on a text, prints the answers beside the calls;
                                       asks hoofask the questions that stand between them
       hooftext.py orphans TEXT        asks hoofask which orphans a text leaves, prints them by name
- is standard input or output. hoofrun is the one that $HOOFRUN names, or crates/hoofrun/out/hoofrun;
hoofask is the one that $HOOFASK names, or target/hoofask.
"""


def read_file(path):
    """All bytes of a file, or of standard input."""
    if path == "-":
        return sys.stdin.buffer.read()
    with open(path, "rb") as file:
        return file.read()


def write_file(path, data):
    """Writes a whole file, or standard output."""
    if path == "-":
        sys.stdout.buffer.write(data)
        sys.stdout.buffer.flush()
        return
    with open(path, "wb") as file:
        file.write(data)


def text_in(path):
    """The text of a file; bytes that are no UTF-8 are a mistake on their line."""
    data = read_file(path)
    try:
        return data.decode("utf-8-sig")
    except UnicodeDecodeError as error:
        line = data[: error.start].count(b"\n") + 1
        raise Mistake(line, f"expected text, found the byte {data[error.start]:02X}") from error


def command(arguments):
    """The bytes that a command makes, and where they go; None where the usage is not kept to."""
    match arguments:
        case ["encode", text, output]:
            return read_text(text_in(text)).to_bytes(), output
        case ["decode", data, output]:
            return text_of(read_file(data)).encode("utf-8"), output
        case ["run", text]:
            return run_text(text_in(text)).encode("utf-8"), "-"
        case ["orphans", text]:
            return orphans_text(text_in(text)).encode("utf-8"), "-"
    return None


def main(arguments):
    """Carries out a command; the status is 1 after a mistake and 2 after a wrong usage."""
    try:
        made = command(arguments)
        if made is None:
            print(USAGE, end="", file=sys.stderr)
            return 2
        write_file(made[1], made[0])
    except Mistake as mistake:
        print(f"{arguments[1]}:{mistake.line_number}: {mistake}", file=sys.stderr)
        return 1
    except ProgramError as error:
        print(f"hooftext: {error}", file=sys.stderr)
        return 1
    except BrokenPipeError:
        os.dup2(os.open(os.devnull, os.O_WRONLY), sys.stdout.fileno())
        return 1
    except OSError as error:
        print(f"hooftext: {error.filename}: {error.strerror}", file=sys.stderr)
        return 1
    return 0


if __name__ == "__main__":
    sys.exit(main(sys.argv[1:]))
