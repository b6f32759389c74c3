"""Names as values: one to eight characters of ASCII, the first in the lowest byte."""

import re

# What is read is also what is shown. Nothing stands for another character, so a quote is in no name.
CHARACTERS = "[ !#-~]"
MOST_CHARACTERS = 8
NAME = re.compile(f"{CHARACTERS}{{1,{MOST_CHARACTERS}}}")


def name_value(name):
    """The value whose bytes are those of the name; bytes past it are 0."""
    return int.from_bytes(name.encode("ascii"), "little")


def name_of(value):
    """The name whose value this is, or None."""
    if value < 0:
        return None
    name = value.to_bytes(MOST_CHARACTERS, "little").rstrip(b"\0").decode("latin-1")
    return name if NAME.fullmatch(name) else None


def name_fault(name):
    """What is wrong with the characters between two quotes, or None."""
    if NAME.fullmatch(name):
        return None
    wrong = re.sub(CHARACTERS, "", name)
    if wrong:
        return f"expected characters from space to ~ in a name, found {wrong[0]!r}"
    return f"expected a name of 1 to {MOST_CHARACTERS} characters, found {len(name)}"
