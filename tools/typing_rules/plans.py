"""What a generated module has: its functions with their types and variables, and its own names."""
import random
from typing import List, NamedTuple

C_WORDS = (
    "char, signed char, unsigned char, short, unsigned short int, int, unsigned, long int, unsigned long, long long, "
    "unsigned long long, Py_ssize_t, size_t, bint"
).split(", ")
USUAL_WORDS = ["int", "int", "long", "Py_ssize_t", "bint"]
VIEW_WORDS = ["int[:]", "int[:]", "int[::1]", "const int[:]", "int[:, :]", "int[:, ::1]", "int[::1, :]", "long[:]", "bint[:]"]
BROKEN_WORDS = ["int[:, ::1, :]", "object[:]", "int[:, :, :, :]", "int[::1, ::1]"]
OBJECT_WORDS = ["", "object", "list", "str"]


class Variable(NamedTuple):
    """A variable: its name, its written type, and of which kind it is: `c`, `object` or `view`."""

    name: str
    word: str
    kind: str


class FunctionPlan(NamedTuple):
    """A function: its parameters, its declared variables, objects that it assigns without declaring them, and what it gives."""

    name: str
    parameters: List[Variable]
    declared: List[Variable]
    assigned: List[Variable]
    word: str
    kind: str

    def variables(self):
        """All its variables."""
        return self.parameters + self.declared + self.assigned


class Plan:
    """A module. Careless ones have types that are broken now and then."""

    def __init__(self, rng: random.Random, risk: float, is_whole: bool):
        self.rng = rng
        self.risk = risk
        self.is_whole = is_whole
        self.functions = [self.function(f"f{number}") for number in range(rng.randint(1, 4))]
        self.names = [Variable(name, "", "object") for name in rng.sample("xyz", rng.randint(1, 3))] if is_whole else []

    def strays(self) -> bool:
        """Whether a choice breaks or nearly breaks a rule."""
        return self.rng.random() < self.risk

    def typed(self, name: str) -> Variable:
        """A variable of this name, of any type."""
        kind = self.rng.choice(["c", "c", "object", "view"]) if self.is_whole else "c"
        if kind == "object":
            return Variable(name, self.rng.choice(OBJECT_WORDS), kind)
        if kind == "view":
            return Variable(name, self.rng.choice(BROKEN_WORDS if self.strays() else VIEW_WORDS), kind)
        return Variable(name, self.rng.choice(self.rng.choice([C_WORDS, USUAL_WORDS])), kind)

    def function(self, name: str) -> FunctionPlan:
        """A function of this name."""
        count, declared = self.rng.randint(0, 3), self.rng.randint(0, 3)
        parameters = [self.typed(one) for one in "abc"[:count]]
        own = [self.typed(one) for one in "ijk"[:declared]]
        own = [one._replace(word=one.word or "object") for one in own]
        assigned = [Variable(one, "", "object") for one in "uv"[: self.rng.randint(0, 2)]] if self.is_whole else []
        kind = self.rng.choice(["c", "c", "void", "def"] + ["view", "object"] * self.is_whole)
        word = {"void": "void", "def": "", "object": self.rng.choice(OBJECT_WORDS)}.get(kind)
        if kind == "c":
            word = self.rng.choice(C_WORDS)
        elif kind == "view":
            word = self.rng.choice(VIEW_WORDS)
        return FunctionPlan(name, parameters, own, assigned, word, kind)
