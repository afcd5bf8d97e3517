"""The types of expressions, and the conversions that are asked for in them. What an expression comes to is its compact text
with its type, or nothing where it is broken; what holds a broken one is broken too, and breaks rules alone that don't look at
its type."""
from typing import List, NamedTuple, Optional

from modules.lexer import Place
from modules.tree import (
    Call,
    Cast,
    Chain,
    Compare,
    Conditional,
    DictDisplay,
    Expr,
    Index,
    ListDisplay,
    Literal,
    Logical,
    Name,
    Row,
    Several,
    Sizeof,
    Slice,
    Subscript,
    Tuple_,
    Unary,
)
from names.calls import METHOD_NUMBERS
from names.scopes import ModuleScope
from typing_rules.constants import Constants
from typing_rules.scopes import Code
from typing_rules.value_types import C_TYPES, OBJECT, VOID, Type, View, common, conversion, is_c, is_view, promoted

INDEX, SIZE = "Py_ssize_t", "size_t"
RANK_LIMIT = 3
LITERAL_LIMIT = 2**63
SIGNS = {"-": "neg", "+": "pos", "~": "inv"}
SHIFTS = ("<<", ">>")
DIVISIONS = ("//", "%")
NUMERIC_BUILTINS = ("abs", "min", "max")


class Typed(NamedTuple):
    """An expression: its compact text, its type, and its place."""

    text: str
    kind: Type
    place: Place


def form(*words) -> str:
    """A compact text in brackets."""
    return f"({' '.join(word for word in words if word)})"


class ExpressionTyper:
    """Types the expressions of a function or of module code. A broken rule of types is E12; its places are collected."""

    def __init__(self, scope: ModuleScope, signatures, code: Code, constants: Constants, found: List[Place]):
        self.scope = scope
        self.signatures = signatures
        self.code = code
        self.constants = constants
        self.found = found
        self.local_names = {local.name for local in code.locals}

    def refuse(self, place: Place) -> None:
        """Notes a broken rule."""
        self.found.append(place)

    # Values and what is asked of them

    def value(self, item: Expr) -> Optional[Typed]:
        """An expression whose value goes somewhere: a void call has none."""
        typed = self.expr(item)
        if typed is not None and typed.kind == VOID:
            return self.refuse(typed.place)
        return typed

    def operand(self, item: Expr) -> Optional[Typed]:
        """A value of a C type, or an object. A view is no operand."""
        typed = self.value(item)
        if typed is not None and is_view(typed.kind):
            return self.refuse(typed.place)
        return typed

    def asked(self, typed: Optional[Typed], target: Optional[Type]) -> Optional[Typed]:
        """A value, converted to a type."""
        if typed is None or target is None:
            return None
        words = conversion(typed.kind, target)
        if words is None:
            return self.refuse(typed.place)
        return Typed(form(words, typed.text) if words else typed.text, target, typed.place)

    def object(self, item: Expr) -> Optional[Typed]:
        """A value as an object."""
        return self.asked(self.value(item), OBJECT)

    def objects(self, items) -> Optional[List[str]]:
        """The texts of values as objects."""
        return self.texts([self.object(item) for item in items])

    def texts(self, parts) -> Optional[List[str]]:
        """The texts of parts of which none is broken."""
        return None if None in parts else [part.text for part in parts]

    def test(self, item: Expr) -> Optional[Typed]:
        """A value that is tested: it is converted to bint."""
        return self.asked(self.operand(item), "bint")

    def whole(self, item: Expr) -> Optional[Typed]:
        """A whole number: a C value as it is, an object converted to Py_ssize_t."""
        typed = self.operand(item)
        return typed if typed is None or is_c(typed.kind) else self.asked(typed, INDEX)

    # Expressions

    def expr(self, item: Expr) -> Optional[Typed]:
        """Any expression, also a void call."""
        if isinstance(item, Several):
            return self.several(item)
        found = {
            Name: self.name,
            Literal: self.literal,
            Sizeof: self.sizeof,
            Tuple_: lambda tuple_: self.display(tuple_, "tuple-of"),
            Compare: self.compare,
            Row: lambda row: self.row(row, row.trailers),
        }[type(item)]
        return found(item)

    def several(self, item: Several) -> Optional[Typed]:
        """An expression with parts."""
        found = {
            Chain: self.chain,
            Logical: self.logical,
            Unary: self.unary,
            Cast: self.cast,
            Conditional: self.conditional,
            ListDisplay: lambda display: self.display(display, "list-of"),
            DictDisplay: lambda display: self.display(display, "dict-of"),
        }[type(item)]
        return found(item)

    def name(self, item: Name) -> Optional[Typed]:
        """A variable."""
        if item.name not in self.local_names:
            return Typed(f"${item.name}", OBJECT, item.place)
        slot = self.code.slot(item.name)
        kind = self.code.locals[slot].kind
        return None if kind is None else Typed(f"L{slot}", kind, item.place)

    def literal(self, item: Literal) -> Typed:
        """A literal below 2^63 is a long, True and False are bint, and all others are objects."""
        if item.word in ("True", "False"):
            return Typed(item.word, "bint", item.place)
        if item.number is not None and item.number < LITERAL_LIMIT:
            return Typed(str(item.number), "long", item.place)
        constant = item.number if item.number is not None else item.text
        return Typed(self.constants.name(item.place, constant), OBJECT, item.place)

    def sizeof(self, item: Sizeof) -> Optional[Typed]:
        """The size of a C type."""
        if item.typing.axes or item.typing.base not in C_TYPES:
            return self.refuse(item.place)
        return Typed(form("sizeof", item.typing.base), SIZE, item.place)

    def display(self, item, word: str) -> Optional[Typed]:
        """A tuple, a list or a dict."""
        parts = self.objects(item.parts)
        return None if parts is None else Typed(form(word, *parts), OBJECT, item.place)

    # Operators

    def step(self, sign: str, left: Type, right: Type):
        """The type at which a binary operator works, and the types to which its operands are converted."""
        if OBJECT in (left, right):
            return OBJECT, OBJECT, OBJECT
        if sign in SHIFTS:
            return promoted(left), promoted(left), right
        return (common(left, right),) * 3

    def spelled(self, sign: str, kind: Type) -> str:
        """How an operator is written; one of C operands that truncates has a `c` before it."""
        truncates = sign in DIVISIONS and kind != OBJECT and self.code.directives["cdivision"]
        return f"c{sign}" if truncates else sign

    def chain(self, item: Chain) -> Optional[Typed]:
        """Binary operators of one level, from the left."""
        operands = [self.operand(part) for part in item.parts]
        if None in operands:
            return None
        so_far = operands[0]
        for sign, right in zip(item.operators, operands[1:]):
            kind, left_kind, right_kind = self.step(sign, so_far.kind, right.kind)
            parts = [self.asked(so_far, left_kind).text, self.asked(right, right_kind).text]
            so_far = Typed(form(self.spelled(sign, kind), kind, *parts), kind, item.place)
        return so_far

    def joined(self, left: Type, right: Type) -> Type:
        """The common type of C types, or else object."""
        return OBJECT if OBJECT in (left, right) else common(left, right)

    def logical(self, item: Logical) -> Optional[Typed]:
        """`and` and `or`, from the left."""
        operands = [self.operand(part) for part in item.parts]
        if None in operands:
            return None
        so_far = operands[0]
        for right in operands[1:]:
            kind = self.joined(so_far.kind, right.kind)
            parts = [self.asked(so_far, kind).text, self.asked(right, kind).text]
            so_far = Typed(form(item.word, kind, *parts), kind, item.place)
        return so_far

    def unary(self, item: Unary) -> Optional[Typed]:
        """Unary operators have the promoted type, `not` is a bint."""
        part = item.parts[0]
        if item.sign == "not":
            test = self.test(part)
            return None if test is None else Typed(form("not", test.text), "bint", item.place)
        typed = self.operand(part)
        if typed is None:
            return None
        kind = promoted(typed.kind) if is_c(typed.kind) else OBJECT
        return Typed(form(SIGNS[item.sign], kind, self.asked(typed, kind).text), kind, item.place)

    def cast(self, item: Cast) -> Optional[Typed]:
        """A written conversion; it stands between equal types too."""
        target = self.declared(item.typing, item.place)
        typed = self.value(item.parts[0])
        if self.asked(typed, target) is None:
            return None
        return Typed(form("cast", conversion(typed.kind, target) or "same", typed.text), target, item.place)

    def declared(self, typing, place: Place) -> Optional[Type]:
        """A written type, which something with this place holds. The axes of a view are three at most, and the last or the first
        may be `::1`, but no two. Its elements have a C type."""
        if not typing.axes:
            return typing.base if typing.base in C_TYPES else OBJECT
        rank, ones = len(typing.axes), [at for at, is_one in enumerate(typing.axes) if is_one]
        if typing.base not in C_TYPES or rank > RANK_LIMIT or len(ones) > 1 or not set(ones) <= {0, rank - 1}:
            return self.refuse(place)
        order = "" if not ones else "c" if ones == [rank - 1] else "f"
        return View(typing.base, rank, typing.is_const, order)

    def conditional(self, item: Conditional) -> Optional[Typed]:
        """A conditional has the common type of C values, or else is an object."""
        first, test, other = self.operand(item.parts[0]), self.test(item.parts[1]), self.operand(item.parts[2])
        if None in (first, test, other):
            return None
        kind = self.joined(first.kind, other.kind)
        values = [self.asked(first, kind).text, self.asked(other, kind).text]
        return Typed(form("choose", kind, test.text, *values), kind, item.place)

    def compare(self, item: Compare) -> Optional[Typed]:
        """Each comparison converts its two operands: C operands of the six comparisons of order and equality to their common
        type, all others to objects."""
        operands = [self.operand(part) for part in item.operands]
        if None in operands:
            return None
        words = [operands[0].text]
        for sign, left, right in zip(item.operators, operands, operands[1:]):
            is_order = sign.split()[0] not in ("is", "in", "not")
            kind = self.joined(left.kind, right.kind) if is_order else OBJECT
            asked = [conversion(left.kind, kind), conversion(right.kind, kind)]
            words += [f"[{asked[0]}]", sign.replace(" ", "-"), f"[{asked[1]}]", right.text]
        return Typed(form("cmp", *words), "bint", item.place)

    # Rows of attributes, calls and subscripts

    def row(self, item: Row, trailers) -> Optional[Typed]:
        """An atom with these of the attributes, calls and subscripts behind it; a void call may end it."""
        at, typed = self.begun(item, trailers)
        while at < len(trailers):
            trailer, behind = trailers[at], trailers[at + 1] if at + 1 < len(trailers) else None
            if typed is not None and typed.kind == VOID:
                typed = self.refuse(item.place)
            if isinstance(trailer, Call):
                # Neither a function, a builtin or an import, nor a method; what is called and is broken itself breaks no rule here.
                return self.refuse(item.place) if typed is not None else None
            if isinstance(trailer, Subscript):
                typed = self.subscript(item.place, typed, trailer)
            elif isinstance(behind, Call):
                typed = self.method(item.place, typed, trailer.name, behind)
                at += 1
            elif trailer.name == "shape" and isinstance(behind, Subscript):
                typed = self.shape(item.place, typed, behind)
                at += 1
            elif trailer.name == "T":
                typed = self.turned(item.place, typed)
            else:
                return self.refuse(item.place)
            at += 1
        return typed

    def begun(self, item: Row, trailers):
        """What a row begins with, and how many of these that takes: a function, a builtin or an import with its call, or an
        atom."""
        head = item.head
        meaning = self.scope.find(head.name, self.local_names) if isinstance(head, Name) else None
        if meaning is None or meaning.kind in ("local", "module"):
            return 0, self.value(head)
        if meaning.kind == "import":
            before = next(at for at, trailer in enumerate(trailers) if isinstance(trailer, Call))
            return before + 1, self.array(item.place, trailers[before])
        arguments = [value for _, value in trailers[0].arguments]
        if meaning.kind == "function":
            return 1, self.function_call(item.place, meaning.what.name, arguments)
        return 1, self.builtin_call(item.place, meaning.what, arguments)

    def function_call(self, place: Place, name: str, arguments) -> Optional[Typed]:
        """A call of a function: each argument is converted to its parameter's type."""
        signature = self.signatures[name]
        parts = [self.asked(self.value(one), kind) for one, kind in zip(arguments, signature.parameters)]
        texts = self.texts(parts)
        if texts is None or signature.gives is None:
            return None
        return Typed(form(f"F{signature.number}", *texts), signature.gives, place)

    def builtin_call(self, place: Place, name: str, arguments) -> Optional[Typed]:
        """A call of a builtin: `abs`, `min` and `max` of C operands and `len` of a view are no object steps."""
        if name in NUMERIC_BUILTINS:
            return self.numeric_call(place, name, arguments)
        if name == "len":
            return self.length(place, arguments[0])
        if name == "print":
            self.constants.print_at(place)
        texts = self.objects(arguments)
        return None if texts is None else Typed(form(name, *texts), OBJECT, place)

    def numeric_call(self, place: Place, name: str, arguments) -> Optional[Typed]:
        """`abs` of a C operand has its promoted type, `min` and `max` of two or more the common one."""
        operands = [self.operand(one) for one in arguments]
        if None in operands:
            return None
        kinds = [one.kind for one in operands]
        is_number = all(map(is_c, kinds)) and (name == "abs" or len(kinds) > 1)
        kind = promoted(kinds[0]) if is_number else OBJECT
        for other in kinds[1:] if is_number else []:
            kind = common(kind, other)
        return Typed(form(name, kind, *[self.asked(one, kind).text for one in operands]), kind, place)

    def length(self, place: Place, argument: Expr) -> Optional[Typed]:
        """The length of a view, or of an object."""
        typed = self.value(argument)
        if typed is not None and is_view(typed.kind):
            return Typed(form("len", INDEX, typed.text), INDEX, place)
        typed = self.asked(typed, OBJECT)
        return None if typed is None else Typed(form("len", OBJECT, typed.text), OBJECT, place)

    def array(self, place: Place, call: Call) -> Optional[Typed]:
        """An array of `cython.view`."""
        texts = self.objects([value for _, value in call.arguments])
        if texts is None:
            return None
        keywords = [keyword for keyword, _ in call.arguments]
        return Typed(form("array", *[f"{keyword}={text}" for keyword, text in zip(keywords, texts)]), OBJECT, place)

    def method(self, place: Place, typed: Optional[Typed], name: str, call: Call) -> Optional[Typed]:
        """A method of an object, or `copy()` of a view, which has no other: that is told at the view."""
        if typed is not None and is_view(typed.kind):
            if name != "copy" or call.arguments:
                return self.refuse(typed.place)
            return Typed(form("copy", typed.text), typed.kind.part(typed.kind.rank), place)
        typed = self.asked(typed, OBJECT)
        texts = self.objects([value for _, value in call.arguments])
        if typed is None or texts is None:
            return None
        return Typed(form("." + (name if name in METHOD_NUMBERS else "other"), typed.text, *texts), OBJECT, place)

    def turned(self, place: Place, typed: Optional[Typed]) -> Optional[Typed]:
        """`.T` of a view."""
        if typed is None:
            return None
        if not is_view(typed.kind):
            return self.refuse(place)
        return Typed(form("T", typed.text), typed.kind.part(typed.kind.rank), place)

    def shape(self, place: Place, typed: Optional[Typed], subscript: Subscript) -> Optional[Typed]:
        """`.shape[k]` of a view; k is a literal below its rank, and another is told at the view."""
        if typed is None:
            return None
        item = subscript.items[0]
        is_single = len(subscript.items) == 1 and not subscript.has_comma and isinstance(item, Index)
        number = item.value.number if is_single and isinstance(item.value, Literal) else None
        if not is_view(typed.kind):
            return self.refuse(place)
        if number is None or number >= typed.kind.rank:
            return self.refuse(typed.place)
        return Typed(form("shape", typed.text, str(number)), INDEX, place)

    # Subscripts

    def subscript(self, place: Place, typed: Optional[Typed], subscript: Subscript) -> Optional[Typed]:
        """A subscript of an object or a view. That of a C value is one of an object."""
        if typed is None:
            return None
        if is_view(typed.kind):
            return self.subscript_of_view(place, typed, subscript)
        return self.subscript_of_object(place, self.asked(typed, OBJECT), subscript)

    def subscript_of_object(self, place: Place, typed: Typed, subscript: Subscript) -> Optional[Typed]:
        """One slice, or a key; several items are a tuple, which can't hold a slice or `...`."""
        items = subscript.items
        is_one = len(items) == 1 and not subscript.has_comma
        if is_one and isinstance(items[0], Slice):
            return self.cut(place, typed, items[0])
        keys = self.objects(subscript.parts)
        if not all(isinstance(item, Index) for item in items):
            return self.refuse(place)
        if keys is None:
            return None
        return Typed(form("get", typed.text, keys[0] if is_one else form("tuple-of", *keys)), OBJECT, place)

    def cut(self, place: Place, typed: Typed, item: Slice) -> Optional[Typed]:
        """A slice of an object: what is written of it are objects."""
        bounds = self.bounds(item, self.object)
        return None if bounds is None else Typed(form("cut", typed.text, *bounds), OBJECT, place)

    def bounds(self, item: Slice, judge) -> Optional[List[str]]:
        """The three parts of a slice, each as the judge says, with `-` for what isn't written."""
        parts = [part if part is None else judge(part) for part in (item.start, item.stop, item.step)]
        if len(item.parts()) != len([part for part in parts if part is not None]):
            return None
        return ["-" if part is None else part.text for part in parts]

    def subscript_of_view(self, place: Place, typed: Typed, subscript: Subscript) -> Optional[Typed]:
        """An element where all axes have an index, without a new axis, and else a view. A part has as many axes as the view, less
        the indices, and with the new ones."""
        items, view = subscript.items, typed.kind
        is_new = [isinstance(one, Index) and isinstance(one.value, Literal) and one.value.word == "None" for one in items]
        new = sum(is_new)
        indices = sum(isinstance(one, Index) for one in items) - new
        slices = sum(isinstance(one, Slice) for one in items)
        dots = len(items) - new - indices - slices
        texts = [self.item_of_view(one, new_axis) for one, new_axis in zip(items, is_new)]
        if indices + slices > view.rank or dots > 1 or view.rank - indices + new > RANK_LIMIT:
            return self.refuse(place)
        if None in texts:
            return None
        nowrap = "" if self.code.directives["wraparound"] or indices == 0 else "-nowrap"
        if indices == view.rank and new == 0:
            texts = [text for text in texts if text != "..."]
            return Typed(form("element" + nowrap, typed.text, *texts), view.element, place)
        part = view.part(view.rank - indices + new)
        return Typed(form("part" + nowrap, str(part), typed.text, *texts), part, place)

    def item_of_view(self, item, is_new: bool) -> Optional[str]:
        """The text of an item of a subscript of a view."""
        if is_new:
            return "new"
        if isinstance(item, Index):
            index = self.whole(item.value)
            return None if index is None else index.text
        if isinstance(item, Slice):
            bounds = self.bounds(item, self.whole)
            return None if bounds is None else form("slice", *bounds)
        return "..."
