"""Runs hoofrun on a text and lays its answers beside the calls, hoofask's beside the questions."""

import re

from .programs import HOOFRUN, ProgramError, numbers_in
from .questions import answers_to
from .reader import read_text
from .refusals import refusal_name

OUTPUT = re.compile(
    r"code,changed,net\n"
    r"(?P<answers>([0-9]+,[0-9]+,-?[0-9]+\n)*)"
    r"(?P<tally>accepted,[0-9]+,refused,[0-9]+,rows,[0-9]+)\n"
)

HEADING = f"{'code':>6}{'rows':>6}{'net':>6}"
SCHEMA_REFUSALS = (1, 3)


def run_hoofrun(data):
    """Runs hoofrun on bytes; gives its answers, triples of numbers, and its last line."""
    printed = HOOFRUN.run(data, OUTPUT)
    return numbers_in(printed["answers"]), printed["tally"]


def answer_text(answer):
    """An answer in columns, with its name if it is a refusal; that to a question has no net."""
    code, columns = answer[0], "".join(f"{number:6}" for number in answer)
    return f"{columns:{len(HEADING)}}  {refusal_name(code)}" if code else columns


def tally_text(tally):
    """The last line as words: accepted 6, refused 2, rows 6."""
    words = tally.split(",")
    return ", ".join(f"{word} {number}" for word, number in zip(words[::2], words[1::2]))


def lines_called(book):
    """The numbers of the lines that hoofrun answers: the calls, and a last one that is too short."""
    short = [book.raw_line] if book.schema and book.raw else []
    return [number for number, _ in book.calls] + short


def answers_by_line(book, answers):
    """The answers to calls and to questions by the numbers of their lines."""
    called = lines_called(book)
    if len(answers) != len(called):
        raise ProgramError(f"hoofrun gave {len(answers)} answers to {len(called)} calls")
    return dict(zip(called, answers)) | answers_to(book)


def laid_out(text, book, answers):
    """The lines of the text, answers beside them; a refused schema has one line of its own."""
    lines = [line.rstrip() for line in text.removesuffix("\n").split("\n")]
    answered = lines_called(book) + [question.line_number for question in book.questions]
    width = max([len(lines[number - 1]) for number in answered] + [len("the schema")])
    below_schema = [" " * width + HEADING]
    if answers and answers[0][0] in SCHEMA_REFUSALS:
        below_schema.append(f"{'the schema':{width}}" + answer_text(answers[0]))
    else:
        for number, answer in answers_by_line(book, answers).items():
            lines[number - 1] = f"{lines[number - 1]:{width}}" + answer_text(answer)
    schema_end = book.schema_line if book.schema else len(lines)
    while schema_end < len(lines) and not lines[schema_end]:
        schema_end += 1
    return lines[:schema_end] + below_schema + lines[schema_end:]


def run_text(text):
    """What running a text shows."""
    book = read_text(text)
    answers, tally = run_hoofrun(book.to_bytes())
    return "\n".join(laid_out(text, book, answers) + [tally_text(tally)]) + "\n"
