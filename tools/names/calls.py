"""Numbers of arguments and keywords of calls."""
from typing import List, NamedTuple, Optional, Set

from modules.lexer import SIZE_LIMIT
from modules.tree import Call, Expr, Literal

PRANGE_KEYWORDS = {"nogil", "schedule", "chunksize", "num_threads"}
ARRAY_NEEDED = {"shape", "itemsize", "format"}
ARRAY_KEYWORDS = ARRAY_NEEDED | {"mode"}
SCHEDULES = {"static", "dynamic", "guided"}

# Any number, which is below the greatest size of a text.
ANY = range(SIZE_LIMIT)
BUILTIN_NUMBERS = {"print": ANY, "min": ANY[1:], "max": ANY[1:], "range": range(1, 4)}
BUILTIN_NUMBERS.update(dict.fromkeys(["list", "tuple", "input"], range(2)))
BUILTIN_NUMBERS.update(dict.fromkeys(["int", "len", "abs", "str", "repr", "bool"], range(1, 2)))
METHOD_NUMBERS = {"append": [1], "pop": [0, 1], "extend": [1], "reverse": [0], "get": [1, 2]}
METHOD_NUMBERS.update({"keys": [0], "values": [0], "items": [0], "split": [0, 1], "join": [1], "strip": [0]})


class Wanted(NamedTuple):
    """What a call needs: how many arguments, which keywords it may have, and which it must have. Keywords of a call
    that may have some are no arguments of the number; those of other calls count as arguments."""

    numbers: object = ANY
    keywords: Set[str] = frozenset()
    needed: Set[str] = frozenset()


PRANGE = Wanted(range(1, 4), PRANGE_KEYWORDS)
ARRAY = Wanted([0], ARRAY_KEYWORDS, ARRAY_NEEDED)


def keywords_of(call: Call) -> List[str]:
    """The keywords of a call, in the order of the text."""
    return [keyword for keyword, _ in call.arguments if keyword is not None]


def number_of(call: Call, wanted: Wanted) -> int:
    """The number of arguments that counts."""
    return len(call.arguments) - (len(keywords_of(call)) if wanted.keywords else 0)


def is_number_wrong(call: Call, wanted: Wanted) -> bool:
    """A call has another number of arguments, lacks a keyword that it must have, or has a keyword twice."""
    keywords = keywords_of(call)
    return (
        number_of(call, wanted) not in wanted.numbers
        or not wanted.needed <= set(keywords)
        or len(keywords) != len(set(keywords))
    )


def is_keyword_unknown(call: Call, wanted: Wanted) -> bool:
    """Keywords are those of prange and array alone."""
    return not set(keywords_of(call)) <= wanted.keywords


def is_value_foreign(keyword: Optional[str], value: Expr) -> bool:
    """`nogil` is True or False, and `schedule` is None or one of three texts, written out."""
    word = value.word if isinstance(value, Literal) else ""
    text = value.text if isinstance(value, Literal) else None
    if keyword == "nogil":
        return word not in ("True", "False")
    return keyword == "schedule" and word != "None" and text not in SCHEDULES
