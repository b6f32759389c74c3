"""Asks both sides a question about the same bytes, and prints the lines of its table."""

import subprocess

RUNS = 3


def asked(program, question, times, path):
    """The seconds of the fastest of so many answers, and the numbers of each line of the answer."""
    with open(path, "rb") as source:
        done = subprocess.run(
            [program, question, str(times)], stdin=source, stdout=subprocess.PIPE, check=True, text=True
        )
    seconds, *lines = done.stdout.splitlines()
    return float(seconds), [tuple(map(int, line.split(","))) for line in lines]


def best(programs, question, times, path, compare):
    """The best seconds of both, one after the other on the same bytes, and the engine's answer."""
    seconds = []
    for _ in range(RUNS):
        answers = [asked(program, question, times, path) for program in programs]
        (ours, our_lines), (theirs, their_lines) = answers
        compare(our_lines, their_lines)
        seconds.append((ours, theirs))
    return *map(min, zip(*seconds)), our_lines


def print_heading(unit, number):
    """The first line: the unit of the times, and what the number is."""
    print(f"{unit:44}{number:>9}{'engine':>11}{'SQLite':>11}{'ratio':>8}")


def print_times(name, number, ours, theirs):
    """One line; the times in the unit."""
    print(f"{name:44}{number:9,}{ours:11.3f}{theirs:11.3f}{theirs / ours:8.2f}", flush=True)
