"""One line of a text, taken apart word by word."""

import re

WORD = re.compile(r'->|-?[0-9]+|[A-Za-z_][A-Za-z0-9_]*|[(),.=?]|"[^"]*"')
BLANKS = re.compile(r"\s*")
BEFORE_COMMENT = re.compile(r'([^"#]|"[^"]*"?)*')  # a # between quotes begins no comment
LONGEST_NUMBER = 20  # characters of the least 64-bit number


class Mistake(Exception):
    """A mistake in a text, with the number of its line."""

    def __init__(self, line_number, what):
        super().__init__(what)
        self.line_number = line_number


class Line:
    """The words of a line; a comment goes from # to the end."""

    def __init__(self, number, text):
        self.line_number = number
        self.text = BEFORE_COMMENT.match(text).group().rstrip()
        self.words = None
        self.next = 0

    def fail(self, what):
        """Reports a mistake on this line."""
        raise Mistake(self.line_number, what)

    def expected(self, what):
        """Reports that something else stands where this was expected."""
        found = self.peek()
        self.fail(f"expected {what}, found {repr(found) if found else 'the end of the line'}")

    def split(self):
        """Cuts the line into words; a character that is in no word is a mistake."""
        self.words, at = [], BLANKS.match(self.text).end()
        while at < len(self.text):
            word = WORD.match(self.text, at)
            if not word and self.text[at] == '"':
                self.fail("expected a second quote after '\"', found the end of the line")
            if not word:
                words = "a name, a number, a name in quotes or one of -> ( ) , . = ?"
                self.fail(f"expected {words}, found {self.text[at]!r}")
            self.words.append(word.group())
            at = BLANKS.match(self.text, word.end()).end()

    def peek(self):
        """The next word, or None at the end."""
        if self.words is None:
            self.split()
        return self.words[self.next] if self.next < len(self.words) else None

    def accept(self, phrase):
        """Takes the words of the phrase if they come next."""
        wanted = phrase.split()
        self.peek()
        found = self.words[self.next : self.next + len(wanted)]
        if found == wanted:
            self.next += len(wanted)
        return found == wanted

    def require(self, phrase, what=None):
        """Takes the words of the phrase; it is a mistake if they do not come next."""
        if not self.accept(phrase):
            self.expected(what or repr(phrase))

    def name(self, what):
        """Takes a name."""
        word = self.peek()
        if not word or not (word[0].isalpha() or word[0] == "_"):
            self.expected(what)
        self.next += 1
        return word

    def at_number(self):
        """Whether a whole number comes next."""
        word = self.peek()
        return bool(word) and word[-1].isdigit() and not (word[0].isalpha() or word[0] == "_")

    def number(self, what, least, most):
        """Takes a whole number from least to most."""
        word = self.peek()
        if not self.at_number():
            self.expected(what)
        if len(word) > LONGEST_NUMBER or not least <= int(word) <= most:
            self.fail(f"expected {what} from {least} to {most}, found {word}")
        self.next += 1
        return int(word)

    def at_quote(self):
        """Whether something in quotes comes next."""
        word = self.peek()
        return bool(word) and word[0] == '"'

    def quoted(self):
        """Takes what comes next in quotes, and gives it without them."""
        word = self.peek()
        self.next += 1
        return word[1:-1]

    def end(self):
        """Nothing may follow."""
        if self.peek() is not None:
            self.expected("the end of the line")
