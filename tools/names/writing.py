"""Writes generated modules by their plans."""
import random

from names.plans import BROKEN_IMPORTS, POOL, Plan
from names.writing_expressions import ExpressionWriter

KINDS = "ValueError KeyError IndexError RuntimeError".split()
FOREIGN_KINDS = "OverlapError Exception a".split()
DIRECTIVES = ["# cython: boundscheck=False", "#cython:cdivision=True , wraparound = False"]
PLAIN_COMMENTS = ["# cython: boundscheck", "# a comment", "## cython: a=b", "# cython: a=b c", "#cython a=b"]
BROKEN_DIRECTIVES = ["# cython: boundscheck=no", "  # cython: profile=True", "# cython: cdivision=True, x=3"]
DECORATORS = ["boundscheck", "wraparound", "cdivision"]
FUNCTIONS = ["def {0}({1}):", "def {0}({1}):", "cdef int {0}({1}) except q nogil:", "cpdef {0}({1}):"]
TYPES = ["int", "long", "object", "unsigned char", "Py_ssize_t", "bint", "list"]


class BlockWriter:
    """Writes the statements of module code or of a function."""

    def __init__(self, rng: random.Random, risk: float, plan: Plan, function=None):
        self.rng = rng
        self.risk = risk
        self.function = function
        self.assigned = function.assigned if function else plan.assigned
        self.write = ExpressionWriter(rng, risk, plan, function)

    def strays(self):
        """Whether a choice strays from the plan."""
        return self.rng.random() < self.risk

    def target(self):
        """What is assigned."""
        if self.strays():
            return self.rng.choice(POOL)
        if self.assigned and self.rng.random() < 0.8:
            return self.rng.choice(self.assigned)
        return f"{self.write.variable()}[{self.write.expr(1)}]"

    def simple(self):
        """A simple statement."""
        kind = self.rng.randint(0, 7)
        if kind == 0:
            return f"{self.target()} += {self.write.expr(2)}"
        if kind == 1:
            return f"{self.target()}, {self.target()} = {self.write.expr(1)}, {self.write.expr(1)}"
        if kind == 2:
            word = self.rng.choice(FOREIGN_KINDS if self.strays() else KINDS)
            return self.rng.choice([f"raise {word}", f"raise {word}({self.write.expr(1)})"])
        if kind == 3:
            return f"return {self.write.expr(2)}" if self.function else "pass"
        if kind == 4:
            return f"{self.target()} = {self.target()} = {self.write.expr(1)}"
        if kind == 5:
            return self.write.expr(3)
        return f"{self.target()} = {self.write.expr(2)}"

    def compound(self, indent, depth):
        """A statement with a block."""
        kind = self.rng.randint(0, 4)
        if kind == 0:
            head = f"if {self.write.expr(1)}:"
        elif kind == 1:
            head = f"while {self.write.expr(1)}:"
        elif kind == 2:
            head = f"for {self.target()} in {self.write.head()}:"
        elif kind == 3:
            head = self.rng.choice(["with gil:", "with nogil:"])
        else:
            head = f"for {self.target()}, {self.target()} in {self.write.expr(1)}:"
        lines = [indent + head]
        if self.strays():
            lines.append(f"{indent}    cdef int {self.rng.choice(POOL)}")
        return lines + self.block(indent + "    ", depth - 1, self.rng.randint(1, 2))

    def block(self, indent, depth, count):
        """Lines of statements."""
        lines = []
        for _ in range(count):
            if depth > 0 and self.rng.random() < 0.4:
                lines.extend(self.compound(indent, depth))
            else:
                statements = [self.simple() for _ in range(self.rng.choice([1, 1, 1, 2]))]
                lines.append(indent + "; ".join(statements))
        return lines

    def assignments(self, indent):
        """One assignment for each name that the plan assigns."""
        forms = ["{0} = {1}", "{0} = {1}", "{0} += {1}", "for {0} in [{1}]: pass", "({0}, {0}) = {1}"]
        return [indent + self.rng.choice(forms).format(name, self.write.expr(1)) for name in self.assigned]


class ModuleWriter(BlockWriter):
    """Writes a module."""

    def __init__(self, rng: random.Random, risk: float, plan: Plan):
        super().__init__(rng, risk, plan)
        self.plan = plan

    def text(self):
        """The text of the module: functions, imports and statements in any order, behind comments."""
        parts = [[line] for line in self.plan.imports]
        if self.strays():
            parts.append([self.rng.choice(BROKEN_IMPORTS)])
        parts.extend(self.definition(function) for function in self.plan.functions)
        parts.extend([line] for line in self.assignments(""))
        parts.extend(self.block("", 2, 1) for _ in range(self.rng.randint(0, 3)))
        if self.rng.random() < 0.2:
            parts.append([f"global {self.rng.choice(POOL)}"])
        if self.strays():
            parts.append([f"cdef int {self.rng.choice(POOL)} = {self.write.expr(1)}"])
        if self.strays() and self.plan.functions:
            parts.append(self.definition(self.plan.functions[0]))
        imports = len(self.plan.imports)
        imported, rest = parts[:imports], parts[imports:]
        self.rng.shuffle(rest)
        # Imports keep their order, since of two for one name the later counts.
        places = sorted(self.rng.choices(range(len(rest) + 1), k=imports), reverse=True)
        for at, part in zip(places, reversed(imported)):
            rest.insert(at, part)
        lines = self.comments() + [line for part in rest for line in part]
        return "\n".join(lines) + "\n"

    def comments(self):
        """Leading comments."""
        lines = [self.rng.choice(DIRECTIVES + PLAIN_COMMENTS) for _ in range(self.rng.randint(0, 2))]
        if self.strays():
            lines.append(self.rng.choice(BROKEN_DIRECTIVES))
        return lines

    def decorators(self):
        """Decorators, where the module `cython` is imported."""
        modules = [name for name, path in self.plan.paths() if path == "cython"]
        if self.strays():
            return [f"@{self.rng.choice(['cython', 'c', 'f'])}.{self.rng.choice(DECORATORS + ['profile'])}(True)"]
        if not modules or self.rng.random() < 0.4:
            return []
        count = self.rng.randint(1, 2)
        return [f"@{self.rng.choice(modules)}.{self.rng.choice(DECORATORS)}(False)" for _ in range(count)]

    def definition(self, function):
        """The lines of a function."""
        inner = BlockWriter(self.rng, self.risk, self.plan, function)
        parameters = [self.rng.choice(["", "", "int ", "object "]) + name for name in function.parameters]
        if parameters and self.strays():
            parameters.append(self.rng.choice(parameters))
        lines = self.decorators() + [self.rng.choice(FUNCTIONS).format(function.name, ", ".join(parameters))]
        own = [f"    cdef {self.rng.choice(TYPES)} {name}" for name in function.declared]
        if own and self.strays():
            own.append(own[0])
        if function.shared:
            own.append(f"    global {', '.join(function.shared)}")
        own.extend(inner.assignments("    "))
        self.rng.shuffle(own)
        return lines + own + inner.block("    ", 2, self.rng.randint(1, 2))
