"""The types of values, and which of them are converted to which. A C type is its spelling with `_` for spaces."""
from typing import NamedTuple, Optional, Union

# Each C type with its number of bits and its rank. Unsigned types are named apart.
C_TYPES = {
    "char": (8, 1),
    "signed_char": (8, 1),
    "unsigned_char": (8, 1),
    "short": (16, 2),
    "unsigned_short": (16, 2),
    "int": (32, 3),
    "unsigned_int": (32, 3),
    "long": (64, 4),
    "unsigned_long": (64, 4),
    "Py_ssize_t": (64, 4),
    "size_t": (64, 4),
    "long_long": (64, 5),
    "unsigned_long_long": (64, 5),
    "bint": (32, 0),
}
UNSIGNED = {"unsigned_char", "unsigned_short", "unsigned_int", "unsigned_long", "unsigned_long_long", "size_t"}
INT_RANK = 3

OBJECT, VOID = "object", "void"
OBJECT_SPELLINGS = {"object", "list", "dict", "tuple", "str"}


class View(NamedTuple):
    """A view of elements of a C type. `order` tells which axis is `::1`: the last (`c`), the first (`f`) or none."""

    element: str
    rank: int
    is_const: bool
    order: str = ""

    def __str__(self):
        axes = [":"] * self.rank
        if self.order:
            axes[-1 if self.order == "c" else 0] = "::1"
        return f"{'const_' if self.is_const else ''}{self.element}[{','.join(axes)}]"

    def part(self, rank):
        """The type of a part of the view, or of the view with its axes in another order."""
        return View(self.element, rank, self.is_const)


Type = Union[str, View]


def is_c(kind: Type) -> bool:
    """Whether it is a C type."""
    return kind in C_TYPES


def is_view(kind: Type) -> bool:
    """Whether it is a view type."""
    return isinstance(kind, View)


def promoted(kind: str) -> str:
    """The type after the integer promotions (ISO C11 6.3.1.1)."""
    if C_TYPES[kind][1] < INT_RANK:
        return "int"
    return {"Py_ssize_t": "long", "size_t": "unsigned_long"}.get(kind, kind)


def common(one: str, other: str) -> str:
    """The common type of two operands (ISO C11 6.3.1.8)."""
    one, other = promoted(one), promoted(other)
    (one_bits, one_rank), (other_bits, other_rank) = C_TYPES[one], C_TYPES[other]
    if one == other:
        return one
    if (one in UNSIGNED) == (other in UNSIGNED):
        return one if one_rank > other_rank else other
    if one in UNSIGNED:
        unsigned, signed, unsigned_rank, signed_rank = one, other, one_rank, other_rank
        holds = other_bits > one_bits
    else:
        unsigned, signed, unsigned_rank, signed_rank = other, one, other_rank, one_rank
        holds = one_bits > other_bits
    if unsigned_rank >= signed_rank:
        return unsigned
    return signed if holds else f"unsigned_{signed}"


def conversion(source: Type, target: Type) -> Optional[str]:
    """The words of a conversion, none between equal types; None where the two don't fit."""
    if source == target:
        return ""
    if is_c(target) and is_c(source):
        return f"to {target}"
    if is_c(target) and source == OBJECT:
        return "truth" if target == "bint" else f"unbox {target}"
    if target == OBJECT and is_c(source):
        return "box"
    if is_view(target) and source == OBJECT:
        return f"view {target}"
    if is_view(target) and is_view(source):
        is_same = (source.element, source.rank) == (target.element, target.rank)
        return f"fit {target}" if is_same and (target.is_const or not source.is_const) else None
    return None
