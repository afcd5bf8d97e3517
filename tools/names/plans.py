"""What a generated module assigns, defines and imports."""
import random
from typing import List, NamedTuple

from names.scopes import BUILTINS

POOL = "a b c f g x len print range list prange view array cython parallel".split()
IMPORTS = {
    "import cython": [("cython", "cython")],
    "cimport cython as c": [("c", "cython")],
    "import cython.parallel": [("cython", "cython")],
    "import cython.view as view": [("view", "cython.view")],
    "import cython.parallel as p": [("p", "cython.parallel")],
    "from cython import parallel, view": [("parallel", "cython.parallel"), ("view", "cython.view")],
    "from cython cimport view as v": [("v", "cython.view")],
    "from cython import parallel as g": [("g", "cython.parallel")],
    "from cython.parallel import prange": [("prange", "cython.parallel.prange")],
    "from cython.parallel cimport prange as f": [("f", "cython.parallel.prange")],
    "from cython.view import array": [("array", "cython.view.array")],
    "from cython.view import array as a": [("a", "cython.view.array")],
}
BROKEN_IMPORTS = ["import os", "import cython.view.array", "from cython import boundscheck as a", "cimport numpy as b"]

# How likely a choice strays from the plan.
CAREFUL = 0.0
CARELESS = 0.08


class FunctionPlan(NamedTuple):
    """A function: its parameters, declared and assigned names, and those that are the module's."""

    name: str
    parameters: List[str]
    declared: List[str]
    assigned: List[str]
    shared: List[str]

    def locals(self):
        """The names that are its own."""
        return set(self.parameters) | set(self.declared) | (set(self.assigned) - set(self.shared))

    def given(self):
        """The names that it assigns as the module's."""
        return (set(self.assigned) & set(self.shared)) - set(self.parameters) - set(self.declared)


def some(rng: random.Random, names, most: int):
    """A few different names."""
    return rng.sample(names, rng.randint(0, min(most, len(names))))


class Plan:
    """A module."""

    def __init__(self, rng: random.Random):
        self.imports = some(rng, list(IMPORTS), 4)
        self.functions = [self.function(rng, name) for name in some(rng, POOL, 3)]
        self.assigned = some(rng, POOL, 3)
        self.names = set(self.assigned)
        for function in self.functions:
            self.names |= function.given()

    def function(self, rng, name) -> FunctionPlan:
        """A function of this name."""
        own = some(rng, POOL, 4)
        cut = rng.randint(0, len(own))
        return FunctionPlan(name, own[:cut], own[cut:], some(rng, POOL, 3), some(rng, POOL, 2))

    def variables(self, function=None):
        """The names that may be read in module code or in a function."""
        return sorted(self.names | (function.locals() if function else set()))

    def callable(self, function=None):
        """The functions that may be called there, each with its number of arguments."""
        hidden = set(self.variables(function))
        return [(one.name, len(one.parameters)) for one in self.functions if one.name not in hidden]

    def paths(self, function=None):
        """The imported names that mean an import there, with their paths; of two for one name the later."""
        hidden = set(self.variables(function)) | {one.name for one in self.functions}
        given = dict(pair for text in self.imports for pair in IMPORTS[text])
        return sorted((name, path) for name, path in given.items() if name not in hidden)

    def builtins(self, function=None):
        """The builtins that mean a builtin there."""
        hidden = set(self.variables(function)) | {one.name for one in self.functions}
        hidden.update(name for text in self.imports for name, _ in IMPORTS[text])
        return sorted(BUILTINS - hidden)
