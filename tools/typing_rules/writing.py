"""Writes generated modules by their plans."""
from typing import Optional

from typing_rules.plans import FunctionPlan, Plan
from typing_rules.writing_expressions import OPERATORS, ExpressionWriter, ViewText, view_of

HEADS = "from cython.parallel import prange\nfrom cython cimport view\nimport cython\n"
COMMENTS = ["# cython: cdivision=True", "# cython: wraparound=False", "# cython: boundscheck=False, cdivision=False"]
DECORATORS = ["@cython.cdivision(True)", "@cython.cdivision(False)", "@cython.wraparound(False)", "@cython.boundscheck(False)"]
SETTINGS = ["", "", ", nogil=True", ", schedule='dynamic'", ", schedule='guided', chunksize={c}", ", num_threads={any}"]
SETTINGS += [", chunksize=None", ", nogil=False, num_threads=None"]
KINDS = ["ValueError", "KeyError", "RuntimeError"]


class BlockWriter(ExpressionWriter):
    """Writes the statements of a function or of module code."""

    def __init__(self, plan: Plan, function: FunctionPlan = None):
        super().__init__(plan, function)
        self.loops = 0

    def target(self, kind: str) -> str:
        """What is assigned by a value of this kind; nothing where there is no such thing."""
        found = [one.name for one in self.variables if one.kind == kind]
        if self.plan.is_whole and kind == "object" and self.rng.random() < 0.3:
            return self.pick(["{object}[{c}]", "{object}[{c}:]", "{object}[{c}, {c}]"], 1)
        view = self.changed_view()
        if view and kind == "c" and self.rng.random() < 0.4:
            return self.element(view, 1)
        return self.rng.choice(found) if found else ""

    def changed_view(self) -> Optional[ViewText]:
        """A variable of a view type that isn't const."""
        found = [view_of(one.name, one.word) for one in self.variables if one.kind == "view"]
        found = [one for one in found if not one.is_const or self.plan.strays()]
        return self.rng.choice(found) if found else None

    def simple(self) -> str:
        """A simple statement."""
        if self.loops and self.rng.random() < 0.15 or self.plan.strays():
            return self.rng.choice(["break", "continue"])
        if self.function and self.rng.random() < 0.2:
            return self.return_()
        if not self.function and self.plan.strays():
            return "return"
        forms = [self.assign, self.assign, self.augment, self.printed, self.alone]
        return self.rng.choice(forms + [self.unpack, self.raise_] * self.plan.is_whole)()

    def return_(self) -> str:
        """A return that fits the function."""
        kind = self.function.kind
        if kind == "view" and not self.plan.strays():
            return f"return {self.fitting(view_of('', self.function.word), 2)}"
        if kind == "void" and self.plan.strays():
            return f"return {self.expr('c', 1)}"
        if kind == "void" or kind == "def" and not self.plan.is_whole:
            return "return"
        if self.rng.random() < 0.1:
            return "return"
        return f"return {self.expr('object' if kind == 'def' else kind, 2)}"

    def assign(self) -> str:
        """An assignment, mostly of the kind that the target has."""
        kind = self.rng.choice(["c", "c", "object", "view"] if self.plan.is_whole else ["c"])
        if kind == "view":
            return self.assign_view()
        targets = [self.target(kind) for _ in range(self.rng.choice([1, 1, 1, 2]))]
        if "" in targets:
            return self.alone()
        return " = ".join([*targets, self.expr("any" if self.plan.is_whole else "c", 2)])

    def assign_view(self) -> str:
        """An assignment to a variable of a view type, or to a slice of one."""
        found = [view_of(one.name, one.word) for one in self.variables if one.kind == "view"]
        changed = self.changed_view()
        if changed and self.rng.random() < 0.5:
            part = self.part(changed, 1)
            is_copy = part.text.endswith((".T", ")"))
            value = self.fitting(part._replace(is_const=True), 2) if self.rng.random() < 0.6 else self.expr("any", 2)
            return f"{part.text}{'[:]' * is_copy} = {value}"
        if not found:
            return self.alone()
        target = self.rng.choice(found)
        return f"{target.text} = {self.expr('any', 1) if self.plan.strays() else self.fitting(target, 2)}"

    def augment(self) -> str:
        """A change of a target."""
        if self.plan.is_whole and self.variables and self.plan.strays():
            names = [one.name for one in self.variables]
            return f"({self.rng.choice(names)}, {self.rng.choice(names)}) += 1"
        kind = self.rng.choice(["c", "c", "object"]) if self.plan.is_whole else "c"
        target = self.target(kind)
        return f"{target} {self.rng.choice(OPERATORS)}= {self.expr(kind, 1)}" if target else self.printed()

    def printed(self) -> str:
        """A print."""
        return f"print({', '.join(self.expr('c', 2) for _ in range(self.rng.randint(0, 2)))})"

    def alone(self) -> str:
        """An expression alone."""
        if self.plan.is_whole and self.rng.random() < 0.2:
            return self.view(2).text
        functions = [one for one in self.plan.functions if self.plan.is_whole or one.kind in ("c", "void", "def")]
        if functions and self.rng.random() < 0.5:
            return self.call(self.rng.choice(functions), 1)
        return self.expr("any", 2)

    def unpack(self) -> str:
        """Several targets."""
        targets = [self.target(self.rng.choice(["c", "object", "view"])) for _ in range(2)]
        return f"{', '.join(targets)} = {self.expr('object', 1)}" if all(targets) else "pass"

    def raise_(self) -> str:
        """A raise."""
        return f"raise {self.rng.choice(KINDS)}" + self.rng.choice(["", "()", f"({self.expr('any', 1)})"])

    def compound(self, indent: str, depth: int):
        """A statement with a block."""
        heads = [self.if_, self.if_, self.while_, self.range]
        head = self.rng.choice(heads + [self.with_, self.over, self.prange, self.prange] * self.plan.is_whole)()
        is_loop = head.startswith(("for", "while"))
        self.loops += is_loop
        lines = [indent + head, *self.block(indent + "    ", depth - 1, self.rng.randint(1, 2))]
        if head.startswith("if"):
            for word in self.rng.choice([[], ["else"], [f"elif {self.expr('c', 1)}"], [f"elif {self.expr('any', 1)}", "else"]]):
                lines += [f"{indent}{word}:", *self.block(indent + "    ", depth - 1, 1)]
        self.loops -= is_loop
        return lines

    def if_(self) -> str:
        """A head of `if`."""
        return f"if {self.expr('c', 2)}:"

    def while_(self) -> str:
        """A head of `while`."""
        return f"while {self.expr('c', 2)}:"

    def with_(self) -> str:
        """A head of `with`."""
        return self.rng.choice(["with gil:", "with nogil:"])

    def range(self) -> str:
        """A head of a loop over range; an `if` where there is no target."""
        target = self.target("c" if not self.plan.is_whole or self.plan.rng.random() < 0.7 else "object")
        arguments = ", ".join(self.expr("c", 1) for _ in range(self.rng.randint(1, 3)))
        return f"for {target} in range({arguments}):" if target else self.if_()

    def over(self) -> str:
        """A head of a loop over an object."""
        kinds = [self.rng.choice(["c", "object", "object", "view"]) for _ in range(self.rng.choice([1, 1, 2]))]
        targets = [self.target(kind) for kind in kinds]
        source = "any" if self.plan.strays() else "object"
        return f"for {', '.join(targets)} in {self.expr(source, 1)}:" if all(targets) else self.while_()

    def prange(self) -> str:
        """A head of a parallel loop."""
        found = [one.name for one in self.variables if one.kind == "c" and one.word != "bint"]
        if self.plan.strays():
            found = [one.name for one in self.variables]
        if not found:
            return self.with_()
        arguments = ", ".join(self.expr("any" if self.plan.strays() else "c", 1) for _ in range(self.rng.randint(1, 3)))
        settings = self.pick([self.rng.choice(SETTINGS)], 0)
        return f"for {self.rng.choice(found)} in prange({arguments}{settings}):"

    def block(self, indent: str, depth: int, count: int):
        """Lines of statements."""
        lines = []
        for _ in range(count):
            if depth > 0 and self.rng.random() < 0.4:
                lines += self.compound(indent, depth)
            else:
                lines.append(indent + "; ".join(self.simple() for _ in range(self.rng.choice([1, 1, 2]))))
        return lines


class ModuleWriter:
    """Writes a module."""

    def __init__(self, plan: Plan):
        self.plan = plan
        self.rng = plan.rng

    def text(self) -> str:
        """The text of the module."""
        parts = ["\n".join(self.function(one)) for one in self.plan.functions]
        outside = BlockWriter(self.plan)
        parts += ["\n".join(outside.block("", 2, 1)) for _ in range(self.rng.randint(0, 2))]
        parts += [f"{one.name} = {outside.expr('any', 1)}" for one in self.plan.names]
        self.rng.shuffle(parts)
        comments = [self.rng.choice(COMMENTS)] if self.rng.random() < 0.3 else []
        return "\n".join([*comments, HEADS + parts[0], *parts[1:]]) + "\n"

    def parameter(self, variable) -> str:
        """A parameter."""
        is_not_none = self.plan.strays() or variable.kind == "view" and self.rng.random() < 0.2
        return f"{variable.word} {variable.name}".strip() + " not None" * is_not_none

    def function(self, plan: FunctionPlan):
        """The lines of a function."""
        parameters = ", ".join(self.parameter(one) for one in plan.parameters)
        lock = self.rng.choice(["", "", "", " nogil", " with gil", " noexcept nogil"]) if self.plan.is_whole else ""
        lock = lock or self.rng.choice(["", "", "", " noexcept", " except -1"])
        if plan.kind == "def":
            head = f"def {plan.name}({parameters}):"
        else:
            head = f"{self.rng.choice(['cdef', 'cdef', 'cpdef', 'cdef inline'])} {plan.word} {plan.name}({parameters}){lock}:"
        writer = BlockWriter(self.plan, plan)
        decorators = [self.rng.choice(DECORATORS)] if self.rng.random() < 0.2 else []
        lines = [*decorators, " ".join(head.split())]
        for one in plan.declared:
            given = f" = {writer.argument(one, 1)}" if self.rng.random() < 0.5 else ""
            lines.append(f"    cdef {one.word} {one.name}{given}")
        lines += [f"    {one.name} = {writer.expr('object', 1)}" for one in plan.assigned]
        return lines + writer.block("    ", 2, self.rng.randint(1, 3))
