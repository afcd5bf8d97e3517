"""The types of statements: each gives its compact text, and notes the rules that it breaks. The text of a module with a broken
rule counts for nothing, so that of a broken part is anything."""
from itertools import takewhile
from typing import Optional

from modules.tree import (
    Assign,
    Attribute,
    Augment,
    Call,
    Declare,
    Expr,
    For,
    Global,
    If,
    Literal,
    Name,
    Plain,
    Raise,
    Return,
    Row,
    Tuple_,
    While,
    With,
)
from names.rules import LOOP_PATH
from typing_rules.expressions import form
from typing_rules.targets import Target, TargetTyper
from typing_rules.value_types import OBJECT, VOID, conversion, is_c, is_view

BROKEN = "?"


def text_of(typed) -> str:
    """The text of a part, also of a broken one."""
    return BROKEN if typed is None else typed.text


def is_literal(item: Expr, *words) -> bool:
    """Whether an expression is one of these words."""
    return isinstance(item, Literal) and item.word in words


class StatementTyper(TargetTyper):
    """Types the statements of a function or of module code. Parallel loops have numbers from the one that is given."""

    def __init__(self, *known, loops: int):
        super().__init__(*known)
        self.loops = loops
        self.depth = 0

    def block(self, statements) -> str:
        """A block."""
        texts = [text for one in statements for text in self.statement(one)]
        return " ".join(["{", *texts, "}"])

    def statement(self, item):
        """The texts of a statement: of those without an effect there is none, and one for each variable that `cdef` gives a
        value."""
        found = {
            Plain: self.plain,
            Global: lambda _: [],
            Declare: self.declare,
            Assign: self.assign,
            Augment: self.augment,
            Return: self.return_,
            Raise: self.raise_,
            If: lambda one: [self.if_(one.arms)],
            While: self.while_,
            For: self.for_,
            With: lambda one: [form("gil" if one.is_gil else "nogil", self.block(one.block))],
        }[type(item)]
        return found(item)

    def plain(self, item: Plain):
        """`break` and `continue` stand in a loop."""
        if item.word == "pass":
            return []
        if self.depth == 0:
            self.refuse(item.place)
        return [form(item.word)]

    def return_(self, item: Return):
        """A return stands in a function, and has no value where the function is void."""
        if self.code.is_module:
            self.refuse(item.place)
        if item.value is None:
            return [form("return")]
        if self.code.gives == VOID:
            self.refuse(item.value.place)
        return [form("return", text_of(self.asked(self.value(item.value), self.code.gives)))]

    def raise_(self, item: Raise):
        """A raise, with its text as an object."""
        return [form("raise", item.kind, "" if item.text is None else text_of(self.object(item.text)))]

    def if_(self, arms) -> str:
        """Tests with their blocks; those behind the first are the second block."""
        (test, block), rest = arms[0], arms[1:]
        words = ["if", text_of(self.test(test)), self.block(block)]
        if rest:
            words.append(self.block(rest[0][1]) if rest[0][0] is None else f"{{ {self.if_(rest)} }}")
        return form(*words)

    def while_(self, item: While):
        """A loop with a test."""
        return [form("while", text_of(self.test(item.test)), self.inner(item.block))]

    def inner(self, block) -> str:
        """The block of a loop."""
        self.depth += 1
        text = self.block(block)
        self.depth -= 1
        return text

    # Assignments

    def declare(self, item: Declare):
        """Variables that are given a value."""
        given = [one for one in item.declarations if one.value is not None]
        return [self.set([self.target(Name(one.place, one.name))], one.value) for one in given]

    def assign(self, item: Assign):
        """An assignment, or an expression alone, which may be a void call or a view, and whose `print` gives nothing."""
        if item.targets:
            return [self.set([self.target(target) for target in item.targets], item.value)]
        typed = self.expr(item.value)
        if isinstance(item.value, Row) and len(item.value.trailers) == 1:
            self.constants.drop_print(item.value.place)
        return [form("do", text_of(typed))]

    def set(self, targets, value: Expr) -> str:
        """A value, which is converted for each target."""
        typed = self.value(value)
        words = []
        for target in targets:
            if target is not None and typed is not None:
                asked = target.asks(typed.kind)
                if asked is None:
                    self.refuse(typed.place)
                words += [f"[{asked}]", target.text]
        return form("set", *words, text_of(typed))

    def augment(self, item: Augment):
        """A target is read, changed and given back. Neither a view nor a list of targets is an operand."""
        if isinstance(item.target, Tuple_):
            self.refuse(item.target.place)
            target = None
        else:
            target = self.target(item.target)
        if target is not None and is_view(target.kind):
            target = self.refuse(item.target.place)
        value = self.operand(item.value)
        if None in (target, value):
            return [BROKEN]
        kind, left, right = self.step(item.operator, target.kind, value.kind)
        into, back = conversion(target.kind, left), conversion(kind, target.kind)
        words = [self.spelled(item.operator, kind), kind, f"[{into}]", target.text, self.asked(value, right).text]
        return [form("aug", *words, f"[{back}]")]

    # Loops

    def for_(self, item: For):
        """A loop over `range`, a parallel one, or one over an object."""
        target = item.targets[0] if len(item.targets) == 1 else Tuple_(item.targets[0].place, item.targets)
        head = item.over.head if isinstance(item.over, Row) else None
        meaning = self.scope.find(head.name, self.local_names) if isinstance(head, Name) else None
        if meaning is not None and (meaning.kind, meaning.what) == ("builtin", "range"):
            return [self.range(item, self.target(target), target)]
        if meaning is not None and meaning.kind == "import":
            before, path = self.path(item.over, meaning.what)
            if path == LOOP_PATH:
                return [self.prange(item, target, item.over.trailers[before])]
        return [self.over(item, self.target(target))]

    def path(self, row: Row, path):
        """How many names behind an import are used with it, and the dotted path."""
        names = [one.name for one in takewhile(lambda trailer: isinstance(trailer, Attribute), row.trailers)]
        return len(names), ".".join(path + names)

    def over(self, item: For, target: Optional[Target]) -> str:
        """A loop over an object; its items are objects."""
        over = self.object(item.over)
        asked = "" if target is None else target.asks(OBJECT)
        return form("for", f"[{asked}]", text_of(target), text_of(over), self.inner(item.block))

    def range(self, item: For, target: Optional[Target], written: Expr) -> str:
        """A loop over whole numbers; a view takes none."""
        if target is not None and is_view(target.kind) and not target.is_part:
            self.refuse(written.place)
        arguments = [text_of(self.whole(value)) for _, value in item.over.trailers[0].arguments]
        return form("range", text_of(target), *arguments, self.inner(item.block))

    def prange(self, item: For, target: Expr, call: Call) -> str:
        """A parallel loop. Its index is a variable of a C integer type other than bint, so it stands in a function."""
        number = self.loops
        self.loops += 1
        index = self.index(target)
        settings = {keyword: value for keyword, value in call.arguments if keyword in ("nogil", "schedule")}
        words = []
        for keyword, value in call.arguments:
            is_absent = keyword in ("chunksize", "num_threads") and is_literal(value, "None")
            if keyword not in settings and not is_absent:
                words.append(f"{keyword}=" * bool(keyword) + text_of(self.whole(value)))
        nogil = "nogil" if "nogil" in settings and is_literal(settings["nogil"], "True") else ""
        schedule = settings["schedule"].text if "schedule" in settings else None
        return form("prange", str(number), nogil, schedule or "static", index, *words, self.inner(item.block))

    def index(self, target: Expr) -> str:
        """The index of a parallel loop. A name of the module is an object."""
        if not isinstance(target, Name):
            self.refuse(target.place)
            return BROKEN
        typed = self.name(target)
        if typed is not None and (not is_c(typed.kind) or typed.kind == "bint"):
            self.refuse(target.place)
        return text_of(typed)
