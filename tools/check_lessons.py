#!/usr/bin/env python3
"""Carries out every command of docs/LESSONS.md and compares the answers with its block."""

import re
import sys
from pathlib import Path

from booktext.line import Mistake
from booktext.orphans import orphans_text
from booktext.programs import ProgramError
from booktext.runner import run_text

ROOT = Path(__file__).resolve().parents[1]
LESSONS = ROOT / "docs" / "LESSONS.md"
EXAMPLES = ROOT / "examples"
BLOCK = re.compile(
    r"^```text\n\$ python3 tools/hooftext\.py (\S+) (\S+)\n(.*?)^```$", re.MULTILINE | re.DOTALL
)
COMMANDS = {"run": run_text, "orphans": orphans_text}


def printed_blocks(document):
    """The blocks of a document: command, file name and what is printed below them."""
    return BLOCK.findall(document)


def block_fault(command, name, printed):
    """What is wrong with a printed block, or None."""
    if command not in COMMANDS:
        return f"expected one of {', '.join(COMMANDS)}, found {command}"
    try:
        answered = COMMANDS[command]((ROOT / name).read_text(encoding="utf-8"))
    except Mistake as mistake:
        return f"line {mistake.line_number}: {mistake}"
    except (OSError, ProgramError) as error:
        return str(error)
    if answered == printed:
        return None
    return "the engine answers otherwise:\n" + answered


def check(document):
    """Pairs of a block and its fault, or None; an example that no block runs is a fault."""
    blocks = printed_blocks(document)
    results = [(f"{block[0]} {block[1]}", block_fault(*block)) for block in blocks]
    run = {name for command, name, _ in blocks if command == "run"}
    for path in sorted(EXAMPLES.glob("*.txt")):
        name = path.relative_to(ROOT).as_posix()
        if name not in run:
            results.append((f"run {name}", f"not shown in {LESSONS.name}"))
    return results


def main():
    """Prints each fault and the count; the status is 0 only where there is no fault."""
    results = check(LESSONS.read_text(encoding="utf-8"))
    faults = [(block, fault) for block, fault in results if fault]
    for block, fault in faults:
        print(f"{block}: {fault}")
    print(f"{len(results) - len(faults)} passed, {len(faults)} failed")
    return 1 if faults or not results else 0


if __name__ == "__main__":
    sys.exit(main())
