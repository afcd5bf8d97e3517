"""The types of what is assigned."""
from typing import NamedTuple, Optional

from modules.tree import Expr, Name, Tuple_
from typing_rules.expressions import ExpressionTyper, form
from typing_rules.value_types import OBJECT, Type, conversion, is_view


class Target(NamedTuple):
    """What is assigned: its compact text, its type, and whether it is a slice of a view, which a C value may fill."""

    text: str
    kind: Type
    is_part: bool = False

    def asks(self, source: Type) -> Optional[str]:
        """The words of the conversion of a value of this type; None where it doesn't fit. A slice takes a view of the same rank
        and element type as it is, and another value by the type of its elements."""
        if not self.is_part:
            return conversion(source, self.kind)
        if is_view(source):
            return "" if (source.element, source.rank) == (self.kind.element, self.kind.rank) else None
        return conversion(source, self.kind.element)


class TargetTyper(ExpressionTyper):
    """Types targets."""

    def target(self, item: Expr) -> Optional[Target]:
        """A target of any form."""
        if isinstance(item, Tuple_):
            return self.list_of_targets(item)
        if isinstance(item, Name):
            typed = self.name(item)
            return None if typed is None else Target(typed.text, typed.kind)
        return self.subscripted(item)

    def list_of_targets(self, item: Tuple_) -> Optional[Target]:
        """Targets with commas: an object is unpacked, whose items are objects."""
        targets = [self.target(part) for part in item.parts]
        if None in targets:
            return None
        words = [word for one in targets for word in (f"[{one.asks(OBJECT)}]", one.text)]
        return Target(form("unpack", *words), OBJECT)

    def subscripted(self, item) -> Optional[Target]:
        """An element or a slice of a view, which isn't const, or an item or slice of an object."""
        behind = item.trailers[-1]
        base = self.row(item, item.trailers[:-1])
        if base is not None and base.kind == "void":
            return self.refuse(base.place)
        typed = self.subscript(item.place, base, behind)
        if base is not None and is_view(base.kind) and base.kind.is_const:
            return self.refuse(item.place)
        return None if typed is None else Target(typed.text, typed.kind, is_view(typed.kind))
