"""The constants of a module: texts, large numbers and None, each once, in the order in which the text first names them."""
import re
from typing import Union

from modules.lexer import Place

# A constant in a text whose number isn't known yet.
MARK = "\0"
MARKED = re.compile(f"{MARK}([0-9]+){MARK}")

Constant = Union[str, int, None]


def written(constant: Constant) -> str:
    """A constant as it is written in a compact text."""
    if not isinstance(constant, str):
        return str(constant)
    letters = [
        f"\\{letter}" if letter in '"\\' else letter if " " <= letter <= "~" else f"\\u{{{ord(letter):x}}}"
        for letter in constant
    ]
    return f'"{"".join(letters)}"'


class Constants:
    """Notes where constants are named; their numbers are known at the end of the module."""

    def __init__(self):
        self.named = []
        self.prints = set()

    def name(self, place: Place, constant: Constant) -> str:
        """Notes a constant, and gives a mark that stands for its number."""
        self.named.append((place, constant))
        return f"{MARK}{len(self.named) - 1}{MARK}"

    def print_at(self, place: Place):
        """Notes a call of `print`, whose value is None."""
        self.prints.add(place)

    def drop_print(self, place: Place):
        """The value of this call isn't used."""
        self.prints.discard(place)

    def in_order(self):
        """The constants, in the order of their numbers."""
        named = self.named + [(place, None) for place in self.prints]
        in_order = sorted(range(len(named)), key=lambda at: named[at][0])
        return list(dict.fromkeys(named[at][1] for at in in_order))

    def numbered(self, text: str) -> str:
        """A text with the numbers of constants in place of their marks, and the list of them at its end."""
        listed = self.in_order()
        text = MARKED.sub(lambda mark: f"#{listed.index(self.named[int(mark.group(1))][1])}", text)
        return " ".join([text, "constants", *map(written, listed)]) if listed else text
