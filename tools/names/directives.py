"""Directives: settings of the compiler in the leading comments and in decorators."""
import re

# A blank is a space, a tab or a form feed. Names and values have no blank, comma or equals sign.
WORD = r"[^ \t\f,=]+"
PAIR = rf"({WORD})[ \t\f]*=[ \t\f]*({WORD})"
FORM = re.compile(rf"#[ \t\f]*cython[ \t\f]*:[ \t\f]*{PAIR}[ \t\f]*(?:,[ \t\f]*{PAIR}[ \t\f]*)*", re.DOTALL)

VALUES = dict.fromkeys(["boundscheck", "wraparound", "cdivision", "initializedcheck"], ["True", "False"])
VALUES["language_level"] = ["3", "3str"]

DECORATED = ["boundscheck", "wraparound", "cdivision"]


def pairs_of(comment: str):
    """The names and values of a comment that has the form of directives; none of any other comment."""
    if not FORM.fullmatch(comment):
        return []
    pairs = comment.split(":", 1)[1].split(",")
    return [[side.strip(" \t\f") for side in pair.split("=")] for pair in pairs]


def is_comment_known(comment: str) -> bool:
    """Each directive of a comment has a known name, with one of its values."""
    return all(value in VALUES.get(name, []) for name, value in pairs_of(comment))
