"""The tokens of a text, by docs/language.md, as far as lists of tokens of the grammar need them."""
import re
from typing import NamedTuple, Tuple

KEYWORDS = set(
    "False None True and as break cdef cimport continue cpdef def elif else except for from global if import in inline "
    "is not or pass raise return sizeof while with".split()
)
FOREIGN_WORDS = set("assert async await class ctypedef del extern finally include lambda nonlocal try yield".split())
AUGMENTED = "+= -= *= //= %= &= |= ^= <<= >>=".split()
SIGNS = "+ - * // % << >> & | ^ ~ < > <= >= == != ( ) [ ] { } , : . ; @ = ? ...".split() + AUGMENTED
FOREIGN_SIGNS = "/ /= ** **= @= -> :=".split()

# The words of the grammar that are kinds of tokens.
KINDS = set("NAME NUMBER STRING AUGMENTED NEWLINE INDENT DEDENT END".split())

LONGEST_FIRST = sorted(SIGNS + FOREIGN_SIGNS, key=len, reverse=True)
PIECE = re.compile(
    r"""(?P<gap>[ ]+|\\\n|\#[^\n]*)
    |(?P<line_end>\n)
    |(?P<string>[RrUu]?('([^'\\\n]|\\.)*'(?!')|"([^"\\\n]|\\.)*"(?!")))
    |(?P<word>[A-Za-z_][A-Za-z_0-9]*)(?!['"])
    |(?P<number>[0-9][A-Za-z_0-9]*)
    |(?P<sign>"""
    + "|".join(map(re.escape, LONGEST_FIRST))
    + ")",
    re.VERBOSE | re.DOTALL,
)


class Token(NamedTuple):
    """A token: the words of the grammar that it is, none if it is foreign, and the indices of its first character and
    behind its last one."""

    words: Tuple[str, ...]
    start: int
    end: int


def words_of(form, spelling):
    """The words of the grammar that a token of this form is."""
    if spelling in FOREIGN_WORDS or spelling in FOREIGN_SIGNS:
        return ()
    if form == "string":
        return ("STRING",)
    quoted = f"'{spelling}'"
    if form == "number":
        return ("NUMBER", quoted)
    if form == "word" and spelling not in KEYWORDS:
        return ("NAME", quoted)
    return ("AUGMENTED", quoted) if spelling in AUGMENTED else (quoted,)


class Lexer:
    """The tokens of a text, as far as it is read."""

    def __init__(self, text):
        self.text = text
        self.tokens = []
        self.levels = [0]
        self.line_start = 0
        self.is_started = False
        self.depth = 0

    def add(self, word, start, end):
        """Adds a token that isn't spelled by its characters."""
        self.tokens.append(Token((word,), start, end))

    def start_line(self):
        """Adds what tells of the indentation of a line, and says whether the line may stand there."""
        level = 0
        while self.text[self.line_start + level] == " ":
            level += 1
        at = self.line_start + level
        if level > self.levels[-1]:
            self.levels.append(level)
            self.add("INDENT", at, at)
        while level < self.levels[-1]:
            self.levels.pop()
            self.add("DEDENT", at, at)
        self.is_started = True
        return level == self.levels[-1]

    def end_line(self, start, end):
        """Reads a line end; inside brackets it is none."""
        if self.depth == 0:
            if self.is_started:
                self.add("NEWLINE", start, end)
            self.line_start = end
            self.is_started = False

    def add_spelled(self, piece):
        """Adds a token that is spelled by its characters."""
        spelling = piece.group()
        if spelling in ("(", "[", "{"):
            self.depth += 1
        elif spelling in (")", "]", "}"):
            self.depth = max(self.depth - 1, 0)
        self.tokens.append(Token(words_of(piece.lastgroup, spelling), piece.start(), piece.end()))

    def end(self):
        """Adds what stands behind the last character."""
        at = len(self.text)
        if self.is_started:
            self.add("NEWLINE", at, at)
        for _ in self.levels[1:]:
            self.add("DEDENT", at, at)
        self.add("END", at, at)


def tokens_of(text):
    """The tokens of a text; None where a line of it is badly indented. It breaks no other rule of the lexer."""
    lexer = Lexer(text)
    at = 0
    while at < len(text):
        piece = PIECE.match(text, at)
        if piece is None:
            raise ValueError(f"no token of these texts: {text[at:]!r}")
        at = piece.end()
        if piece.lastgroup == "line_end":
            lexer.end_line(piece.start(), at)
        elif piece.lastgroup != "gap":
            if not lexer.is_started and not lexer.start_line():
                return None
            lexer.add_spelled(piece)
    lexer.end()
    return lexer.tokens


def place_of(text, at):
    """The line and the column of the character at an index, as a refusal gives them."""
    return f"{text.count(chr(10), 0, at) + 1}:{at - text.rfind(chr(10), 0, at)}"
