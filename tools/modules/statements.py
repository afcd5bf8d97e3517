"""The reader of modules and statements: one function for each rule of the grammar."""
from grammar.tokens import AUGMENTED
from modules.expressions import ExpressionReader
from modules.tree import (
    Assign,
    Augment,
    Declaration,
    Declare,
    Decorator,
    For,
    Function,
    Global,
    If,
    Import,
    Module,
    Name,
    Parameter,
    Plain,
    Raise,
    Return,
    Row,
    Subscript,
    Tuple_,
    While,
    With,
)


class ModuleReader(ExpressionReader):
    """Reads a module."""

    def module(self, comments):
        """A whole module."""
        items = []
        while not self.takes("<END>"):
            if not self.takes("<NEWLINE>"):
                items.extend(self.module_item())
        return Module(items, comments)

    def module_item(self):
        """A function, an import, or statements."""
        word = self.spelled(self.at)
        if word in ("import", "cimport"):
            return [self.import_()]
        if word == "from":
            return [self.from_import()]
        if word in ("@", "def", "cpdef") or word == "cdef" and self.begins_function():
            return [self.function()]
        return self.statement()

    # Imports

    def dotted(self):
        """Names with points between them."""
        names = [self.name()]
        while self.takes("."):
            names.append(self.name())
        return names

    def alias(self):
        """The name behind `as`."""
        return self.name() if self.takes("as") else None

    def import_(self):
        """An import of a module."""
        place = self.take().place
        found = Import(place, self.dotted(), None, self.alias())
        self.expect("<NEWLINE>")
        return found

    def from_import(self):
        """An import of names from a module."""
        place = self.take().place
        dotted, taken = self.dotted(), []
        if not self.takes("cimport"):
            self.expect("import")
        while not taken or self.takes(","):
            taken.append((self.name(), self.alias()))
        self.expect("<NEWLINE>")
        return Import(place, dotted, taken, None)

    # Functions

    def begins_function(self):
        """Whether a `cdef` begins a function: a name with a bracket stands where a declared variable has none."""
        if self.spelled(self.at + 1) == "inline":
            return True
        ends = self.behind_type(self.at + 1) + [self.at + 1]
        if self.spelled(self.at + 1) == "void":
            ends.append(self.at + 2)
        return any(self.kind(end) == "NAME" and self.spelled(end + 1) == "(" for end in ends)

    def function(self):
        """A function with its decorators."""
        place = self.here.place
        decorators = []
        while self.sees("@"):
            decorators.append(self.decorator())
        if not self.takes("def"):
            if not self.takes("cpdef"):
                self.expect("cdef")
            self.takes("inline")
            end = self.behind_typed_name(("(",))
            if end is None and self.takes("void"):
                gives = "void"
            else:
                gives = self.type_before(end)
            is_plain = False
        else:
            is_plain, gives = True, None
        name = self.name()
        self.expect("(")
        parameters = self.listed(self.parameter, ")")
        is_noexcept, lock = (False, "") if is_plain else self.clauses()
        self.expect(":")
        return Function(place, decorators, name, gives, parameters, is_noexcept, lock, self.block())

    def type_before(self, end):
        """Takes the type before the name at this index, if one stands there."""
        return self.type_to(end) if end is not None and end > self.at else None

    def decorator(self):
        """A decorator."""
        place = self.take().place
        name_place = self.here.place
        names = self.dotted()
        self.expect("(")
        is_true = self.takes("True")
        if not is_true:
            self.expect("False")
        self.expect(")")
        self.expect("<NEWLINE>")
        return Decorator(place, names, name_place, is_true)

    def parameter(self):
        """A parameter."""
        place = self.here.place
        end = self.behind_typed_name((",", ")", "not"))
        if end is None:
            self.refuse()
        typing = self.type_before(end)
        name = self.name()
        is_not_none = self.takes("not")
        if is_not_none:
            self.expect("None")
        return Parameter(place, name, typing, is_not_none)

    def clauses(self):
        """What a header says of exceptions and of the lock: whether it has `noexcept`, and a word of the lock."""
        is_noexcept = self.takes("noexcept")
        if not is_noexcept and self.takes("except"):
            if not self.takes("*"):
                self.takes("?")
                self.expr()
        if self.takes("with"):
            self.expect("gil")
            return is_noexcept, "gil"
        return is_noexcept, "nogil" if self.takes("nogil") else ""

    # Blocks

    def block(self):
        """A line, or deeper lines."""
        if not self.takes("<NEWLINE>"):
            return self.line()
        self.expect("<INDENT>")
        statements = []
        while not statements or not self.takes("<DEDENT>"):
            statements.extend(self.statement())
        return statements

    def line(self):
        """Simple statements on one line."""
        statements = [self.simple()]
        while self.takes(";"):
            if self.sees("<NEWLINE>"):
                break
            statements.append(self.simple())
        self.expect("<NEWLINE>")
        return statements

    def statement(self):
        """A compound statement or a declaration, or the statements of a line."""
        compound = {
            "if": self.if_,
            "while": self.while_,
            "for": self.for_,
            "with": self.with_,
            "cdef": self.declare,
        }.get(self.spelled(self.at))
        return [compound()] if compound else self.line()

    def if_(self):
        """Tests with their blocks."""
        place = self.take().place
        arms = []
        while not arms or self.takes("elif"):
            test = self.expr()
            self.expect(":")
            arms.append((test, self.block()))
        if self.takes("else"):
            self.expect(":")
            arms.append((None, self.block()))
        return If(place, arms)

    def while_(self):
        """A loop with a test."""
        place = self.take().place
        test = self.expr()
        self.expect(":")
        return While(place, test, self.block())

    def for_(self):
        """A loop over something."""
        place = self.take().place
        targets = []
        while not targets or self.takes(","):
            targets.append(self.target(self.primary()))
        self.expect("in")
        over = self.exprs(":")
        self.expect(":")
        return For(place, targets, over, self.block())

    def with_(self):
        """A block with or without the lock."""
        place = self.take().place
        is_gil = self.takes("gil")
        if not is_gil:
            self.expect("nogil")
        self.expect(":")
        return With(place, is_gil, self.block())

    # Declarations

    def declare(self):
        """Declared variables."""
        place = self.take().place
        if not self.takes(":"):
            return Declare(place, self.declared_line(place))
        self.expect("<NEWLINE>")
        self.expect("<INDENT>")
        declarations = []
        while not declarations or not self.takes("<DEDENT>"):
            declarations.extend(self.declared_line(self.here.place))
        return Declare(place, declarations)

    def declared_line(self, typing_place):
        """Variables of one type, on a line with this place."""
        ends = self.behind_type(self.at)
        ends = [end for end in ends if self.kind(end) == "NAME" and self.spelled(end + 1) in ("=", ",", "<NEWLINE>")]
        if not ends:
            self.refuse()
        typing = self.type_to(ends[0])
        declarations = []
        while not declarations or self.takes(","):
            place = self.here.place
            name = self.name()
            value = self.expr() if self.takes("=") else None
            declarations.append(Declaration(place, name, value, typing, typing_place))
        self.expect("<NEWLINE>")
        return declarations

    # Simple statements

    def simple(self):
        """A simple statement."""
        word = self.spelled(self.at)
        if word in ("pass", "break", "continue"):
            return Plain(self.here.place, self.take().spelling)
        if word == "return":
            place = self.take().place
            return Return(place, None if self.spelled(self.at) in (";", "<NEWLINE>") else self.exprs(";", "<NEWLINE>"))
        if word == "raise":
            return self.raise_()
        if word == "global":
            place, names = self.take().place, []
            while not names or self.takes(","):
                names.append(self.name())
            return Global(place, names)
        return self.assign()

    def raise_(self):
        """A raise."""
        place = self.take().place
        kind, text = self.name(), None
        if self.takes("("):
            text = None if self.sees(")") else self.expr()
            self.expect(")")
        return Raise(place, kind, text)

    def assign(self):
        """An assignment, or an expression alone."""
        place, targets = self.here.place, []
        value = self.exprs("=", ";", "<NEWLINE>")
        if self.spelled(self.at) in AUGMENTED:
            target = self.target(value)
            operator = self.take().spelling.removesuffix("=")
            return Augment(place, target, operator, self.expr())
        while self.sees("="):
            targets.append(self.targets(value))
            self.take()
            value = self.exprs("=", ";", "<NEWLINE>")
        return Assign(place, targets, value)

    def targets(self, read):
        """Targets with commas, or one."""
        if isinstance(read, Tuple_) and not read.is_bracketed:
            return Tuple_(read.place, [self.target(part) for part in read.parts])
        return self.target(read)

    def target(self, read):
        """What may be assigned: a name, a subscript, or targets in parentheses."""
        is_list = isinstance(read, Tuple_) and read.is_bracketed and read.parts
        is_subscript = isinstance(read, Row) and isinstance(read.trailers[-1], Subscript)
        if is_list:
            return Tuple_(read.place, [self.target(part) for part in read.parts])
        if isinstance(read, Name) or is_subscript:
            return read
        return self.refuse()
