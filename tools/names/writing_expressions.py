"""Writes expressions of generated modules: by the plan, or astray from it."""
import random

from names.calls import BUILTIN_NUMBERS, METHOD_NUMBERS
from names.plans import POOL, Plan

OPERATORS = "+ - * // % << & | ^ < >= == != in and or".split()
ARRAY = 'shape=({0},), itemsize=8, format="l"'
HEADERS = ["", ", nogil=True", ", schedule='static'", ', schedule="gui" "ded", chunksize=2', ", nogil=(False)"]
BROKEN_HEADERS = [", nogil=1", ", schedule='auto'", ", foo=1", ", nogil=True, nogil=True", ", 2, 3, 4", ", schedule=a"]
STRAYS = ["q", "{0} is {1}", "range({0})", "print(a={0})", "len({0}, {1})", "len", "{0}.append()", "prange({0})"]
STRAYS += ["view.array({0})", "cython", "(print)"]
STRAYED_HEADS = ["range({0}),", "prange({0}),", "range()", "prange({0})", "range({0})[0]"]


class ExpressionWriter:
    """Writes expressions of module code or of a function."""

    def __init__(self, rng: random.Random, risk: float, plan: Plan, function=None):
        self.rng = rng
        self.risk = risk
        self.variables = plan.variables(function)
        self.callable = plan.callable(function)
        self.paths = plan.paths(function)
        self.builtins = plan.builtins(function)

    def strays(self):
        """Whether a choice strays from the plan."""
        return self.rng.random() < self.risk

    def variable(self):
        """A variable; a list where there is none."""
        if self.strays():
            return self.rng.choice(POOL)
        return self.rng.choice(self.variables) if self.variables else "[0]"

    def expr(self, depth):
        """An expression."""
        if self.strays():
            return self.rng.choice(STRAYS).format(self.variable(), self.variable())
        if depth == 0 or self.rng.random() < 0.3:
            return self.rng.choice([self.variable(), self.variable(), "1", "'a'", "None", "True", "sizeof(int)"])
        parts = [self.chain, self.display, self.conditional, self.comparison, self.unary]
        return self.rng.choice(parts + [self.call, self.builtin, self.method])(depth - 1)

    def chain(self, depth):
        """An operator between two operands."""
        return f"{self.bracketed(depth)} {self.rng.choice(OPERATORS)} {self.bracketed(depth)}"

    def bracketed(self, depth):
        """An operand."""
        inner = self.expr(depth)
        return f"({inner})" if " " in inner or self.rng.random() < 0.1 else inner

    def unary(self, depth):
        """An operator before its operand."""
        return f"{self.rng.choice(['-', '~', '<int>', 'not '])}{self.bracketed(depth)}"

    def comparison(self, depth):
        """A comparison with None."""
        form = self.rng.choice(["{0} is None", "None is not {0}", "{0} is (None)", "1 < {0} is None"])
        return form.format(self.bracketed(depth))

    def conditional(self, depth):
        """A conditional."""
        return f"({self.expr(depth)} if {self.bracketed(depth)} else {self.expr(depth)})"

    def display(self, depth):
        """A display, or a subscript."""
        form = self.rng.choice(["[{0}, {1}]", "({0}, {1})", "{{{0}: {1}}}", "[{0}][{1}]", "({0})[{1}:]", "({0},)"])
        return form.format(self.expr(depth), self.expr(depth))

    def arguments(self, numbers, depth):
        """Arguments of one of these numbers."""
        if self.strays():
            numbers = [0, 1, 2, 3]
        return ", ".join(self.expr(depth) for _ in range(self.rng.choice(numbers)))

    def call(self, depth):
        """A call of a function, or an array."""
        arrays = [name + "." * bool(rest) + rest for name, rest in self.reached("cython.view.array")]
        if arrays and self.rng.random() < 0.4:
            return f"{self.rng.choice(arrays)}({ARRAY.format(self.expr(depth))})"
        if not self.callable:
            return self.builtin(depth)
        name, number = self.rng.choice(self.callable)
        return f"{name}({self.arguments([number], depth)})"

    def builtin(self, depth):
        """A call of a builtin."""
        names = [name for name in self.builtins if name != "range"]
        name = self.rng.choice(names)
        numbers = [number for number in range(4) if number in BUILTIN_NUMBERS[name]]
        return f"{name}({self.arguments(numbers, depth)})"

    def method(self, depth):
        """A call of a method, or of an unknown one."""
        name = self.rng.choice(sorted(METHOD_NUMBERS) + ["copy"])
        return f"{self.variable()}.{name}({self.arguments(METHOD_NUMBERS.get(name, [0, 1, 2]), depth)})"

    def reached(self, path):
        """The imported names below which this path lies, each with the rest of the path."""
        for name, start in self.paths:
            if path == start or path.startswith(start + "."):
                yield name, path[len(start) + 1 :]

    def head(self):
        """What a loop goes over."""
        if self.strays():
            return self.rng.choice(STRAYED_HEADS).format(self.expr(1))
        loops = [name + "." * bool(rest) + rest for name, rest in self.reached("cython.parallel.prange")]
        if loops and self.rng.random() < 0.6:
            header = self.rng.choice(BROKEN_HEADERS if self.strays() else HEADERS)
            arguments = (self.arguments([1, 2, 3], 1) + header).removeprefix(", ")
            call = f"{self.rng.choice(loops)}({arguments})"
        elif "range" in self.builtins:
            call = f"range({self.arguments([1, 2, 3], 1)})"
        else:
            call = self.expr(2)
        return f"({call})" if self.rng.random() < 0.2 else call
