"""Questions that stand between the calls of a text; hoofrun's bytes have no place for them."""

import re
from dataclasses import dataclass

from .programs import HOOFASK, numbers_in

QUESTIONS = ("bound",)  # as the line and hoofask call them; each is answered by a code and a number
ANSWER = re.compile(r"(?P<answer>[0-9]+,[0-9]+)\n")


@dataclass(frozen=True)
class Question:
    """A question: its line, its name, and how many calls are above it."""

    line_number: int
    name: str
    calls_above: int


def ask_number(name, data):
    """Asks hoofask about bytes; gives the code and the number."""
    return numbers_in(HOOFASK.run(data, ANSWER, name)["answer"])[0]


def answers_to(book):
    """The answer to each question of a book, as it stands after the calls above, by line number."""
    return {
        question.line_number: ask_number(question.name, book.first_bytes(question.calls_above))
        for question in book.questions
    }
