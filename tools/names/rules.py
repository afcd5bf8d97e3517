"""The rules of names. Each is judged by itself over the whole module, and gives the numbers and places where it is
broken."""
from modules.lexer import Place
from modules.tree import (
    Assign,
    Attribute,
    Augment,
    Call,
    Compare,
    Declare,
    Decorator,
    Expr,
    For,
    Function,
    If,
    Import,
    Literal,
    Module,
    Name,
    Raise,
    Return,
    Row,
    Several,
    Subscript,
    Tuple_,
    While,
)
from names import calls
from names.calls import Wanted
from names.directives import DECORATED, is_comment_known
from names.scopes import FunctionScope, ModuleScope, blocks_of, declared_in, is_import_known, statements_in

RAISED_KINDS = set(
    "IndexError ValueError ZeroDivisionError OverflowError TypeError KeyError EOFError NameError UnboundLocalError "
    "AttributeError RuntimeError RecursionError".split()
)
DECORATOR_SPELLINGS = [["cython", name] for name in DECORATED]
LOOP_PATH, ARRAY_PATH = "cython.parallel.prange", "cython.view.array"


class Judge:
    """Collects the broken rules of a module."""

    def __init__(self, module: Module):
        self.scope = ModuleScope(module.items)
        self.locals = frozenset()
        self.found = []
        self.module(module)

    def breaks(self, number: int, place: Place):
        """Notes a broken rule."""
        self.found.append((place, number))

    def module(self, module: Module):
        """Judges a module. A leading comment that sets something unknown is E27 at its `#`, and a second function of a
        name is E11 at the function."""
        names = set()
        for comment in module.comments:
            if not is_comment_known(comment.text):
                self.breaks(27, comment.place)
        for item in module.items:
            if isinstance(item, Import):
                self.import_(item)
            elif isinstance(item, Function):
                if item.name in names:
                    self.breaks(11, item.place)
                names.add(item.name)
                self.function(item)
            else:
                self.statement(item, False)

    def import_(self, item: Import):
        """Imports other than the known ones are E27 at the import."""
        paths = [item.dotted] if item.taken is None else [item.dotted + [name] for name, _ in item.taken]
        if not all(is_import_known(path, item.taken is None) for path in paths):
            self.breaks(27, item.place)

    def decorator(self, item: Decorator):
        """A decorator is one of three directives of the imported module `cython`, by whatever name it was imported.
        Without the import it is E10 at its first name, if it is spelled as one of the three; any other is E27."""
        meaning = self.scope.find(item.names[0])
        path = meaning.what + item.names[1:] if meaning.kind == "import" else []
        if meaning.kind != "import" and item.names in DECORATOR_SPELLINGS:
            self.breaks(10, item.name_place)
        elif path not in DECORATOR_SPELLINGS:
            self.breaks(27, item.place)

    def function(self, item: Function):
        """Judges a function. A second parameter or declaration of a name is E11 at itself."""
        for decorator in item.decorators:
            self.decorator(decorator)
        names = set()
        for declaration in [*item.parameters, *declared_in(item.block)]:
            if declaration.name in names:
                self.breaks(11, declaration.place)
            names.add(declaration.name)
        self.locals = FunctionScope(item).locals
        for statement in item.block:
            self.statement(statement, True)
        self.locals = frozenset()

    # Statements

    def statement(self, item, is_own: bool):
        """Judges a statement and those in it."""
        self.statement_alone(item, is_own)
        for block in blocks_of(item):
            for inner in statements_in(block):
                self.statement_alone(inner, False)

    def statement_alone(self, item, is_own: bool):
        """Judges a statement without the blocks in it. A `cdef` stands in the block of a function itself, and a raise
        names one of Python's kinds, which are words and no names."""
        if isinstance(item, Declare) and not is_own or isinstance(item, Raise) and item.kind not in RAISED_KINDS:
            self.breaks(27, item.place)
        if isinstance(item, For):
            self.head_of_for(item.over)
        for expr in self.read_by(item):
            self.expr(expr)

    def read_by(self, item):
        """The expressions of a statement, with its targets, but for what a loop goes over."""
        if isinstance(item, Assign):
            return [*item.targets, item.value]
        if isinstance(item, Augment):
            return [item.target, item.value]
        if isinstance(item, For):
            return item.targets
        if isinstance(item, If):
            return [test for test, _ in item.arms if test is not None]
        if isinstance(item, Declare):
            return [one.value for one in item.declarations if one.value is not None]
        single = {While: "test", Return: "value", Raise: "text"}.get(type(item))
        value = getattr(item, single) if single else None
        return [] if value is None else [value]

    def head_of_for(self, over: Expr):
        """Calls of `range` and `prange` stand alone as what a loop goes over, parentheses aside."""
        if isinstance(over, Row):
            self.row(over, True)
        else:
            self.expr(over)

    # Expressions

    def expr(self, item: Expr):
        """Judges an expression and its parts."""
        if isinstance(item, Name):
            self.name(item)
        elif isinstance(item, (Several, Tuple_)):
            for part in item.parts:
                self.expr(part)
        elif isinstance(item, Compare):
            self.compare(item)
        elif isinstance(item, Row):
            self.row(item, False)

    def name(self, item: Name):
        """A name that nothing gives is E10. Functions, imports and builtins are no values."""
        meaning = self.scope.find(item.name, self.locals)
        if meaning.kind == "unknown":
            self.breaks(10, item.place)
        elif meaning.kind not in ("local", "module"):
            self.breaks(27, item.place)

    def compare(self, item: Compare):
        """One side of `is` and `is not` is the word None, else it is E27 at the whole comparison."""
        is_none = [isinstance(one, Literal) and one.word == "None" for one in item.operands]
        for at, operator in enumerate(item.operators):
            if operator.startswith("is") and not is_none[at] and not is_none[at + 1]:
                self.breaks(27, item.place)
        for operand in item.operands:
            self.expr(operand)

    def row(self, item: Row, is_head: bool):
        """Judges an atom with what stands behind it. Functions, builtins and imports are called at once, in the ways
        that are listed; `range` and `prange` only as the whole head of a loop."""
        is_named = isinstance(item.head, Name)
        meaning = self.scope.find(item.head.name, self.locals) if is_named else None
        if is_named and meaning.kind in ("function", "builtin", "import"):
            self.used(item, meaning, is_head)
        else:
            self.expr(item.head)
            self.trailers(item, item.trailers, Wanted())
        for trailer in item.trailers:
            self.parts(trailer)

    def used(self, item: Row, meaning, is_head: bool):
        """Judges the use of a function, a builtin or an import."""
        before, wanted, is_loop = 0, Wanted(), False
        if meaning.kind == "function":
            wanted = Wanted([len(meaning.what.parameters)])
        elif meaning.kind == "builtin":
            wanted = Wanted(calls.BUILTIN_NUMBERS[meaning.what])
            is_loop = meaning.what == "range"
        else:
            before, path = self.path(item, meaning.what)
            wanted = {LOOP_PATH: calls.PRANGE, ARRAY_PATH: calls.ARRAY}.get(path)
            is_loop = path == LOOP_PATH
        rest = item.trailers[before:]
        is_called = wanted is not None and rest and isinstance(rest[0], Call)
        if not is_called or is_loop and (len(rest) > 1 or not is_head):
            self.breaks(27, item.place)
        self.trailers(item, rest if is_called else item.trailers, wanted if is_called else Wanted())
        if is_called and wanted is calls.PRANGE:
            self.header(rest[0])

    def path(self, item: Row, path):
        """The longest dotted path that an import is used by, and how many names behind the first one it takes."""
        names = []
        for trailer in item.trailers:
            if not isinstance(trailer, Attribute):
                break
            names.append(trailer.name)
        return len(names), ".".join(path + names)

    def header(self, call: Call):
        """The lock and the schedule of prange are written out, else it is E27 at the value."""
        for keyword, value in call.arguments:
            if calls.is_value_foreign(keyword, value):
                self.breaks(27, value.place)

    def trailers(self, item: Row, trailers, first: Wanted):
        """Judges the calls of a row, at its first token. The first trailer, if it is a call, needs what is given; a
        call behind a name is a method's, whose number of arguments its name says."""
        before = None
        for at, trailer in enumerate(trailers):
            if isinstance(trailer, Call):
                wanted = first if at == 0 else Wanted()
                if isinstance(before, Attribute):
                    wanted = Wanted(calls.METHOD_NUMBERS.get(before.name, calls.ANY))
                self.call(item, trailer, wanted)
            before = trailer

    def call(self, item: Row, call: Call, wanted: Wanted):
        """A wrong number of arguments is E13, and a keyword that isn't known E27, at the call's first token."""
        if calls.is_number_wrong(call, wanted):
            self.breaks(13, item.place)
        if calls.is_keyword_unknown(call, wanted):
            self.breaks(27, item.place)

    def parts(self, trailer):
        """Judges the expressions of a subscript or a call."""
        if isinstance(trailer, Subscript):
            for part in trailer.parts:
                self.expr(part)
        elif isinstance(trailer, Call):
            for _, value in trailer.arguments:
                self.expr(value)
