"""The reader of expressions and types: one function for each rule of the grammar."""
from modules.lexer import Refused
from modules.tree import (
    Attribute,
    Call,
    Cast,
    Chain,
    Compare,
    Conditional,
    DictDisplay,
    Ellipsis_,
    Expr,
    Index,
    ListDisplay,
    Literal,
    Logical,
    Name,
    Row,
    Sizeof,
    Slice,
    Subscript,
    Tuple_,
    TypeName,
    Unary,
)

WORDS = ["or", "and"]
OPERATORS = [("|",), ("^",), ("&",), ("<<", ">>"), ("+", "-"), ("*", "//", "%")]
COMPARISONS = {"<", ">", "<=", ">=", "==", "!=", "in", "is"}
PLAIN_TYPES = {"bint", "object", "Py_ssize_t", "size_t", "list", "dict", "tuple", "str"}


def base_of(words) -> str:
    """The one spelling of the base of a type: a sign is written where it changes the type, `int` where nothing else is."""
    rest = [word for word in words if word not in ("signed", "unsigned")]
    if len(rest) > 1 and rest[-1] == "int":
        rest.pop()
    is_signed_char = rest == ["char"] and "signed" in words
    signs = ["unsigned"] if "unsigned" in words else ["signed"] if is_signed_char else []
    return "_".join(signs + (rest or ["int"]))


class ExpressionReader:
    """Reads tokens from the left, and refuses the first one with which it can't go on."""

    def __init__(self, tokens):
        self.tokens = tokens
        self.at = 0

    @property
    def here(self):
        """The token that is read next."""
        return self.tokens[self.at]

    def spelled(self, at):
        """The spelling of a word or sign; the kind of any other token, in angle brackets."""
        token = self.tokens[min(at, len(self.tokens) - 1)]
        return token.spelling if token.kind in ("NAME", "KEYWORD", "SIGN") else f"<{token.kind}>"

    def kind(self, at):
        """The kind of a token."""
        return self.tokens[min(at, len(self.tokens) - 1)].kind

    def sees(self, *words):
        """Whether these words come next."""
        return all(self.spelled(self.at + k) == word for k, word in enumerate(words))

    def refuse(self):
        """No module goes on so."""
        raise Refused(5, self.here.place)

    def take(self):
        """Takes a token."""
        self.at += 1
        return self.tokens[self.at - 1]

    def takes(self, *words):
        """Takes these words if they come next."""
        if self.sees(*words):
            self.at += len(words)
            return True
        return False

    def expect(self, *words):
        """Takes these words."""
        if not self.takes(*words):
            self.refuse()

    def name(self):
        """Takes a name."""
        if self.here.kind != "NAME":
            self.refuse()
        return self.take().spelling

    # Types

    def behind_base(self, at):
        """The indices behind each `base` that begins there."""
        word = self.spelled(at)
        if self.kind(at) != "NAME":
            return []
        if word in PLAIN_TYPES:
            return [at + 1]
        signed = [at + 1] if word in ("signed", "unsigned") else []
        start = at + 1 if signed else at
        return signed + self.behind_width(start)

    def behind_width(self, at):
        """The indices behind each form of `char`, `short`, `int` and `long` that begins there."""
        word, ends = self.spelled(at), [at + 1]
        if word in ("char", "int"):
            return ends
        if word not in ("short", "long"):
            return []
        if word == "long" and self.spelled(at + 1) == "long":
            ends.append(at + 2)
        return ends + [end + 1 for end in ends if self.spelled(end) == "int"]

    def behind_axes(self, at):
        """The index behind the axes that begin there."""
        if self.spelled(at) != "[":
            return at
        while True:
            at += 1
            if self.spelled(at) != ":":
                return None
            at += 1
            if self.spelled(at) == ":":
                if self.kind(at + 1) != "NUMBER" or self.tokens[at + 1].spelling != "1":
                    return None
                at += 2
            if self.spelled(at) == "]":
                return at + 1
            if self.spelled(at) != ",":
                return None

    def behind_type(self, at):
        """The indices behind each `type` that begins there."""
        start = at + 1 if self.spelled(at) == "const" else at
        ends = [self.behind_axes(end) for end in self.behind_base(start)]
        return [end for end in ends if end is not None]

    def take_type(self, *followers) -> TypeName:
        """Takes a type that one of these words follows."""
        ends = [end for end in self.behind_type(self.at) if self.spelled(end) in followers]
        if not ends:
            self.refuse()
        return self.type_to(ends[0])

    def type_to(self, end) -> TypeName:
        """Takes the type that ends before this index."""
        words = [self.spelled(at) for at in range(self.at, end)]
        self.at = end
        is_const = words[0] == "const"
        axes = words[words.index("[") + 1 : -1] if "[" in words else []
        base = words[is_const : words.index("[") if axes else None]
        return TypeName(base_of(base), is_const, ["::" in axis for axis in "".join(axes).split(",") if axis])

    def behind_typed_name(self, followers):
        """The index of the name in `[type] NAME` with one of these words behind it."""
        for end in self.behind_type(self.at) + [self.at]:
            if self.kind(end) == "NAME" and self.spelled(end + 1) in followers:
                return end
        return None

    # Expressions

    def exprs(self, *ends):
        """Expressions with commas, up to one of these words."""
        place = self.here.place
        first = self.expr()
        if not self.sees(","):
            return first
        parts = [first]
        while self.takes(",") and self.spelled(self.at) not in ends:
            parts.append(self.expr())
        return Tuple_(place, parts)

    def expr(self):
        """A conditional, or what is no one."""
        place = self.here.place
        first = self.chain(0)
        if not self.takes("if"):
            return first
        test = self.chain(0)
        self.expect("else")
        return Conditional(place, [first, test, self.expr()])

    def chain(self, level):
        """`or` and `and`."""
        if level == len(WORDS):
            return self.not_()
        place = self.here.place
        parts = [self.chain(level + 1)]
        while self.takes(WORDS[level]):
            parts.append(self.chain(level + 1))
        return parts[0] if len(parts) == 1 else Logical(place, parts, WORDS[level])

    def not_(self):
        """`not`."""
        place = self.here.place
        if self.takes("not"):
            return Unary(place, [self.not_()], "not")
        return self.compare()

    def compare(self):
        """A chain of comparisons."""
        place = self.here.place
        operands, operators = [self.operator(0)], []
        while self.spelled(self.at) in COMPARISONS or self.sees("not", "in"):
            operator = self.take().spelling
            if operator == "not" or operator == "is" and self.sees("not"):
                operator += " " + self.take().spelling
            operators.append(operator)
            operands.append(self.operator(0))
        return Compare(place, operands, operators) if operators else operands[0]

    def operator(self, level):
        """Binary operators."""
        if level == len(OPERATORS):
            return self.unary()
        place = self.here.place
        parts, operators = [self.operator(level + 1)], []
        while self.spelled(self.at) in OPERATORS[level]:
            operators.append(self.take().spelling)
            parts.append(self.operator(level + 1))
        return Chain(place, parts, operators) if operators else parts[0]

    def unary(self):
        """Unary operators and casts."""
        place = self.here.place
        if self.spelled(self.at) in ("+", "-", "~"):
            sign = self.take().spelling
            return Unary(place, [self.unary()], sign)
        if self.takes("<"):
            typing = self.take_type(">")
            self.expect(">")
            return Cast(place, [self.unary()], typing)
        return self.primary()

    def primary(self):
        """An atom, with what stands behind it."""
        place = self.here.place
        head, trailers = self.atom(), []
        while True:
            if self.takes("."):
                trailers.append(Attribute(self.name()))
            elif self.takes("("):
                trailers.append(Call(self.listed(self.argument, ")")))
            elif self.takes("["):
                items = self.listed(self.item, "]")
                if not items:
                    self.at -= 1
                    self.refuse()
                trailers.append(Subscript(items, self.spelled(self.at - 2) == ","))
            else:
                return Row(place, head, trailers) if trailers else head

    def listed(self, part, end):
        """Parts with commas between them, and one more at most behind them, up to this word."""
        parts = []
        while not self.takes(end):
            parts.append(part())
            if not self.sees(end):
                self.expect(",")
        return parts

    def argument(self):
        """An argument, with its keyword."""
        keyword = None
        if self.here.kind == "NAME" and self.spelled(self.at + 1) == "=":
            keyword = self.take().spelling
            self.take()
        return keyword, self.expr()

    def item(self):
        """An item of a subscript."""
        if self.takes("..."):
            return Ellipsis_()
        parts = [None if self.sees(":") else self.expr()]
        while len(parts) < 3 and self.takes(":"):
            is_written = self.spelled(self.at) not in (":", ",", "]")
            parts.append(self.expr() if is_written else None)
        return Index(parts[0]) if len(parts) == 1 else Slice(*parts, *[None] * (3 - len(parts)))

    def pair(self):
        """A key and a value."""
        key = self.expr()
        self.expect(":")
        return [key, self.expr()]

    def atom(self):
        """An atom."""
        token = self.here
        if token.kind == "NAME":
            return Name(token.place, self.take().spelling)
        if token.kind == "NUMBER":
            return Literal(token.place, number=int(self.take().spelling, 0))
        if token.kind == "STRING":
            said = ""
            while self.here.kind == "STRING":
                said += self.take().content
            return Literal(token.place, text=said)
        if token.spelling in ("True", "False", "None"):
            return Literal(token.place, word=self.take().spelling)
        if self.takes("sizeof"):
            self.expect("(")
            typing = self.take_type(")")
            self.expect(")")
            return Sizeof(token.place, typing)
        return self.display(token.place)

    def display(self, place) -> Expr:
        """What stands in brackets."""
        if self.takes("("):
            inner = Tuple_(place, []) if self.sees(")") else self.exprs(")")
            self.expect(")")
            if isinstance(inner, Tuple_) and not inner.is_bracketed:
                inner.place = place
            inner.is_bracketed = True
            return inner
        if self.takes("["):
            inner = [] if self.sees("]") else [self.exprs("]")]
            self.expect("]")
            is_list = inner and isinstance(inner[0], Tuple_) and not inner[0].is_bracketed
            return ListDisplay(place, inner[0].parts if is_list else inner)
        if self.takes("{"):
            pairs = self.listed(self.pair, "}")
            return DictDisplay(place, [part for pair in pairs for part in pair])
        return self.refuse()
