"""The tokens of a module with their places, and its leading comments."""
import re
import unicodedata
from typing import NamedTuple, Tuple

from grammar.tokens import FOREIGN_SIGNS, FOREIGN_WORDS, KEYWORDS, LONGEST_FIRST

SIZE_LIMIT = 1_048_576
NAME_LIMIT = 255
NUMBER_LIMIT = 2**127
BLANKS = " \t\f"
STRING_PREFIXES = set("r u b c f br rb fr rf ur".split())
FOREIGN_PREFIXES = STRING_PREFIXES - {"r", "u"}

DIGITS = "[0-9](?:_?[0-9])*"
FLOAT = re.compile(
    rf"(?:{DIGITS}\.(?:{DIGITS})?(?:[eE][+-]?{DIGITS})?|\.{DIGITS}(?:[eE][+-]?{DIGITS})?|{DIGITS}[eE][+-]?{DIGITS})j?"
    rf"|{DIGITS}j"
)
WHOLE = re.compile(r"0[xX](?:_?[0-9a-fA-F])+|0[oO](?:_?[0-7])+|0[bB](?:_?[01])+|0(?:_?0)*|[1-9](?:_?[0-9])*")
SIGN = re.compile("|".join(map(re.escape, LONGEST_FIRST)))
LINE_END = re.compile(r"\r\n|\r|\n")
SIMPLE_ESCAPES = dict(zip("\\'\"abfnrtv", "\\'\"\a\b\f\n\r\t\v"))
ESCAPE_SIZES = {"x": 2, "u": 4, "U": 8}

Place = Tuple[int, int]


class Refused(Exception):
    """The text breaks a rule with this number at this place."""

    def __init__(self, number: int, place: Place):
        super().__init__(number, place)
        self.number = number
        self.place = place


class Token(NamedTuple):
    """A token: its kind, its spelling, its place, and what a string says."""

    kind: str
    spelling: str
    place: Place
    content: str = ""


class Comment(NamedTuple):
    """A comment before the first token, from its `#` to its line end."""

    text: str
    place: Place


class Lexer:
    """Reads a text once from its start."""

    def __init__(self, text: str):
        if len(text.encode("utf-8", "surrogatepass")) > SIZE_LIMIT:
            raise Refused(7, (1, 1))
        self.text = text[1:] if text.startswith("\ufeff") else text
        self.starts = [0] + [end.end() for end in LINE_END.finditer(self.text)]
        self.line = 0
        self.at = 0
        self.depth = 0
        self.levels = [0]
        self.tokens = []
        self.comments = []
        self.is_started = False
        self.indentation = (0, 0)

    def place(self, at: int) -> Place:
        """The line and the column of the character there, which isn't before the line that is read."""
        while self.line + 1 < len(self.starts) and self.starts[self.line + 1] <= at:
            self.line += 1
        while self.starts[self.line] > at:
            self.line -= 1
        return (self.line + 1, at - self.starts[self.line] + 1)

    def refuse(self, number: int, at: int):
        """Ends the reading."""
        raise Refused(number, self.place(at))

    def add(self, kind: str, start: int, end: int, content: str = ""):
        """Adds a token."""
        self.tokens.append(Token(kind, self.text[start:end], self.place(start), content))

    def read(self):
        """Reads all tokens."""
        self.start_line()
        while self.at < len(self.text):
            self.read_piece()
        end = len(self.text)
        if self.is_started:
            self.add("NEWLINE", end, end)
        for _ in self.levels[1:]:
            self.add("DEDENT", end, end)
        self.add("END", end, end)
        return self.tokens, self.comments

    def start_line(self):
        """Notes the indentation of a line: form feeds, and then spaces, which count."""
        start = self.at
        while self.text[start : start + 1] == "\f":
            start += 1
        end = start
        while self.text[end : end + 1] == " ":
            end += 1
        self.indentation = (end - start, end)

    def start_logical_line(self):
        """Judges the indentation of a line that has a token."""
        level, at = self.indentation
        if self.text[at] == "\t":
            self.refuse(3, at)
        if self.text[at] == "\f":
            self.refuse(2, at)
        if level > self.levels[-1]:
            self.levels.append(level)
            self.add("INDENT", at, at)
        while level < self.levels[-1]:
            self.levels.pop()
            self.add("DEDENT", at, at)
        if level != self.levels[-1]:
            self.refuse(3, at)
        self.is_started = True

    def read_piece(self):
        """Reads blanks, a comment, a line end, a join, or a token."""
        start, here = self.at, self.text[self.at]
        line_end = LINE_END.match(self.text, start)
        join = here == "\\" and LINE_END.match(self.text, start + 1)
        if line_end:
            self.end_line(line_end.end())
        elif here in BLANKS:
            self.at += 1
        elif here == "#":
            rest = LINE_END.search(self.text, start)
            self.at = rest.start() if rest else len(self.text)
            if not self.tokens:
                self.comments.append(Comment(self.text[start : self.at], self.place(start)))
        elif join:
            self.at = join.end()
        else:
            if not self.is_started and self.depth == 0:
                self.start_logical_line()
            self.read_token()

    def end_line(self, end: int):
        """Ends a logical line, outside brackets."""
        if self.depth == 0:
            if self.is_started:
                self.add("NEWLINE", self.at, end)
            self.is_started = False
        self.at = end
        if self.depth == 0:
            self.start_line()

    def read_token(self):
        """Reads a token that has characters."""
        start, here = self.at, self.text[self.at]
        if here == "_" or here.isidentifier():
            self.read_word()
        elif here in "'\"":
            self.read_string(start, "")
        elif here in "0123456789" or FLOAT.match(self.text, start):
            self.read_number()
        else:
            self.read_sign()

    def read_word(self):
        """Reads a keyword, a name, or a string with a prefix."""
        start, end = self.at, self.at + 1
        while end < len(self.text) and ("a" + self.text[end]).isidentifier():
            end += 1
        word = self.text[start:end]
        if self.text[end : end + 1] in ("'", '"') and word.lower() in STRING_PREFIXES:
            self.read_string(start, word.lower())
            return
        if unicodedata.normalize("NFKC", word) != word or len(word.encode("utf-8")) > NAME_LIMIT:
            self.refuse(2, start)
        kind = "FOREIGN" if word in FOREIGN_WORDS else "KEYWORD" if word in KEYWORDS else "NAME"
        self.at = end
        self.add(kind, start, end)

    def read_number(self):
        """Reads a whole number; one with a point, an exponent or a j is refused."""
        start = self.at
        number = FLOAT.match(self.text, start)
        rule = 8 if number else 2
        number = number or WHOLE.match(self.text, start)
        end = number.end()
        after = self.text[end : end + 1]
        if rule == 8 or after and ("a" + after).isidentifier():
            self.refuse(2 if after and ("a" + after).isidentifier() else 8, start)
        if int(number.group(), 0) >= NUMBER_LIMIT:
            self.refuse(9, start)
        self.at = end
        self.add("NUMBER", start, end)

    def read_sign(self):
        """Reads an operator or a delimiter, the longest."""
        sign = SIGN.match(self.text, self.at)
        if sign is None:
            self.refuse(2, self.at)
        if sign.group() in "([{":
            self.depth += 1
        elif sign.group() in ")]}":
            self.depth = max(self.depth - 1, 0)
        self.at = sign.end()
        self.add("FOREIGN" if sign.group() in FOREIGN_SIGNS else "SIGN", sign.start(), sign.end())

    def read_string(self, start: int, prefix: str):
        """Reads a string whose prefix begins there."""
        at = start + len(prefix)
        quote = self.text[at] * 3 if self.text[at : at + 3] == self.text[at] * 3 else self.text[at]
        body = at + len(quote)
        end = body
        while not self.text.startswith(quote, end):
            if end >= len(self.text) or len(quote) == 1 and LINE_END.match(self.text, end):
                self.refuse(4, start)
            line_end = self.text[end] == "\\" and LINE_END.match(self.text, end + 1)
            end = line_end.end() if line_end else end + 2 if self.text[end] == "\\" else end + 1
        content = self.text[body:end] if "r" in prefix else self.content(body, end)
        self.at = end + len(quote)
        kind = "FOREIGN" if prefix in FOREIGN_PREFIXES else "STRING"
        self.add(kind, start, self.at, LINE_END.sub("\n", content))

    def content(self, at: int, end: int) -> str:
        """What the body of a string says."""
        said = []
        while at < end:
            if self.text[at] != "\\":
                said.append(self.text[at])
                at += 1
            else:
                piece, at = self.escape(at)
                said.append(piece)
        return "".join(said)

    def escape(self, at: int):
        """What an escape says, and the index behind it."""
        line_end = LINE_END.match(self.text, at + 1)
        octal = re.compile("[0-7]{1,3}").match(self.text, at + 1)
        letter = self.text[at + 1]
        if line_end:
            return "", line_end.end()
        if letter in SIMPLE_ESCAPES:
            return SIMPLE_ESCAPES[letter], at + 2
        if octal:
            return chr(int(octal.group(), 8)), octal.end()
        if letter in ESCAPE_SIZES:
            end = at + 2 + ESCAPE_SIZES[letter]
            digits = self.text[at + 2 : end]
            is_hex = re.fullmatch(f"[0-9a-fA-F]{{{ESCAPE_SIZES[letter]}}}", digits)
            code = int(digits, 16) if is_hex else 0x110000
            if code >= 0x110000 or 0xD800 <= code < 0xE000:
                self.refuse(2, at)
            return chr(code), end
        if letter == "N":
            self.refuse(2, at)
        return "\\" + letter, at + 2


def tokens_of(text: str):
    """The tokens and the leading comments of a text. A foreign word or sign of a text that has tokens is refused."""
    tokens, comments = Lexer(text).read()
    for token in tokens:
        if token.kind == "FOREIGN":
            raise Refused(27, token.place)
    return tokens, comments
