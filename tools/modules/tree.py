"""Trees of modules. The place of a node is that of its first token; a single expression in parentheses is that expression, at its
own place."""
from dataclasses import dataclass, field
from typing import List, Optional, Tuple, Union

from modules.lexer import Comment, Place


@dataclass
class Node:
    """Something with a place."""

    place: Place


@dataclass
class TypeName:
    """A written type: its base in one spelling, with `_` for spaces, whether it is const, and for each axis of a view whether it
    is `::1`. Without axes it is no view."""

    base: str
    is_const: bool
    axes: List[bool]


@dataclass
class Expr(Node):
    """An expression; it may stand in parentheses."""

    is_bracketed: bool = field(default=False, init=False)


@dataclass
class Name(Expr):
    """A name."""

    name: str


@dataclass
class Literal(Expr):
    """One of the words True, False and None, or a text, or a number; other kinds have no word, no text and no number."""

    word: str = ""
    text: Optional[str] = None
    number: Optional[int] = None


@dataclass
class Sizeof(Expr):
    """The size of a type."""

    typing: TypeName


@dataclass
class Several(Expr):
    """Expressions that an operator or a display has as parts, without a rule of their own."""

    parts: List[Expr]


@dataclass
class Chain(Several):
    """Operands with binary operators of one level between them."""

    operators: List[str]


@dataclass
class Logical(Several):
    """Operands with `and`, or with `or`, between them."""

    word: str


@dataclass
class Unary(Several):
    """An operator before its operand: `+`, `-`, `~` or `not`."""

    sign: str


@dataclass
class Cast(Several):
    """A cast of its operand."""

    typing: TypeName


@dataclass
class Conditional(Several):
    """A value, the test for it, and the other value."""


@dataclass
class ListDisplay(Several):
    """A list in square brackets."""


@dataclass
class DictDisplay(Several):
    """Keys, each with its value behind it."""


@dataclass
class Tuple_(Expr):
    """Expressions with commas, or none in parentheses."""

    parts: List[Expr]


@dataclass
class Compare(Expr):
    """A chain of comparisons: operators stand between the operands."""

    operands: List[Expr]
    operators: List[str]


@dataclass
class Attribute:
    """A name behind a point."""

    name: str


@dataclass
class Slice:
    """A slice: where it begins and ends, and its step, each where it is written."""

    start: Optional[Expr]
    stop: Optional[Expr]
    step: Optional[Expr]

    def parts(self) -> List[Expr]:
        """What is written."""
        return [part for part in (self.start, self.stop, self.step) if part is not None]


@dataclass
class Ellipsis_:
    """`...`"""

    def parts(self) -> List[Expr]:
        """Nothing."""
        return []


@dataclass
class Index:
    """An index, or `None`."""

    value: Expr

    def parts(self) -> List[Expr]:
        """The index."""
        return [self.value]


@dataclass
class Subscript:
    """The items of a subscript, and whether a comma stands behind the last one."""

    items: list
    has_comma: bool

    @property
    def parts(self) -> List[Expr]:
        """All expressions in it."""
        return [part for item in self.items for part in item.parts()]


@dataclass
class Call:
    """Arguments, each with its keyword."""

    arguments: List[Tuple[Optional[str], Expr]]


@dataclass
class Row(Expr):
    """Attributes, subscripts and calls behind an atom."""

    head: Expr
    trailers: list


@dataclass
class Statement(Node):
    """A statement."""


@dataclass
class Plain(Statement):
    """A statement without parts: pass, break, continue."""

    word: str


@dataclass
class Assign(Statement):
    """Targets, each a list with commas or one, and what they are given; without targets an expression alone."""

    targets: List[Expr]
    value: Expr


@dataclass
class Augment(Statement):
    """A target that is changed by an operator."""

    target: Expr
    operator: str
    value: Expr


@dataclass
class Return(Statement):
    """A return."""

    value: Optional[Expr]


@dataclass
class Raise(Statement):
    """A raise of a kind."""

    kind: str
    text: Optional[Expr]


@dataclass
class Global(Statement):
    """Names that are the module's."""

    names: List[str]


@dataclass
class Declaration(Node):
    """A variable of a `cdef`, with its first value, its type, and the place of the line that has the type."""

    name: str
    value: Optional[Expr]
    typing: TypeName
    typing_place: Place


@dataclass
class Declare(Statement):
    """A line or a group of `cdef`."""

    declarations: List[Declaration]


@dataclass
class If(Statement):
    """Tests with their blocks; the block behind `else` has no test."""

    arms: list


@dataclass
class While(Statement):
    """A loop with a test."""

    test: Expr
    block: list


@dataclass
class For(Statement):
    """A loop over something."""

    targets: List[Expr]
    over: Expr
    block: list


@dataclass
class With(Statement):
    """A block with or without the lock."""

    is_gil: bool
    block: list


@dataclass
class Decorator(Node):
    """A decorator, with the place of its first name, and what it sets."""

    names: List[str]
    name_place: Place
    is_true: bool


@dataclass
class Parameter(Node):
    """A parameter; its type comes first, where it is written."""

    name: str
    typing: Optional[TypeName]
    is_not_none: bool


@dataclass
class Function(Node):
    """A function. It gives a type, `void`, or what isn't written; `lock` is `nogil`, `gil` or nothing. The values behind `except`
    are not kept, since nothing in them is tested."""

    decorators: List[Decorator]
    name: str
    gives: Union[TypeName, str, None]
    parameters: List[Parameter]
    is_noexcept: bool
    lock: str
    block: list


@dataclass
class Import(Node):
    """An import: the dotted name, and the names that are taken from it, none where it is imported itself. Each name
    comes with the one behind `as`."""

    dotted: List[str]
    taken: Optional[List[Tuple[str, Optional[str]]]]
    alias: Optional[str]


@dataclass
class Module:
    """A module: functions, imports and statements in the order of the text, and the leading comments."""

    items: list
    comments: List[Comment]
