"""What a name means at a place: the locals of a function, the names of the module, functions, imports and builtins."""
from typing import Dict, List, NamedTuple, Set

from modules.tree import Assign, Augment, Declare, For, Function, Global, If, Import, Name, Tuple_, While, With

BUILTINS = set("print input len int str repr bool list tuple abs min max range".split())

# What an import may bring in, by its dotted path.
IMPORTED_MODULES = ["cython", "cython.parallel", "cython.view"]
IMPORTED_NAMES = ["cython.parallel", "cython.view", "cython.parallel.prange", "cython.view.array"]


class Meaning(NamedTuple):
    """What a name stands for: a local, module, function, import or builtin; for a function its definition, for an
    import its dotted path."""

    kind: str
    what: object = None


UNKNOWN = Meaning("unknown")


def blocks_of(statement):
    """The blocks of a statement."""
    if isinstance(statement, If):
        return [block for _, block in statement.arms]
    return [statement.block] if isinstance(statement, (While, For, With)) else []


def statements_in(block):
    """All statements of a block and of the blocks in it."""
    for statement in block:
        yield statement
        for inner in blocks_of(statement):
            yield from statements_in(inner)


def names_in(target):
    """The names that a target assigns. The variable of a subscript is read and not assigned."""
    if isinstance(target, Name):
        yield target.name
    elif isinstance(target, Tuple_):
        for part in target.parts:
            yield from names_in(part)


def assigned_in(block) -> Set[str]:
    """The names that are assigned by `=`, an operator with `=`, a loop or an unpacking, at any depth."""
    names = set()
    for statement in statements_in(block):
        if isinstance(statement, (Assign, For)):
            targets = statement.targets
        else:
            targets = [statement.target] if isinstance(statement, Augment) else []
        for target in targets:
            names.update(names_in(target))
    return names


def declared_in(block):
    """The declarations of variables, at any depth, in the order of the text."""
    for statement in statements_in(block):
        if isinstance(statement, Declare):
            yield from statement.declarations


def global_in(block) -> Set[str]:
    """The names of all `global` statements, wherever they stand."""
    found = (statement.names for statement in statements_in(block) if isinstance(statement, Global))
    return {name for names in found for name in names}


def is_import_known(path: List[str], is_module: bool) -> bool:
    """Imports are the three modules of Cython, and four names from them."""
    return ".".join(path) in (IMPORTED_MODULES if is_module else IMPORTED_NAMES)


def imported_by(statement: Import):
    """The names that an import gives, each with its path. `import a.b` gives `a` with all that is below it. What isn't
    known gives no name."""
    if statement.taken is not None:
        for name, alias in statement.taken:
            path = statement.dotted + [name]
            if is_import_known(path, False):
                yield alias or name, path
    elif is_import_known(statement.dotted, True):
        if statement.alias is None:
            yield statement.dotted[0], statement.dotted[:1]
        else:
            yield statement.alias, statement.dotted


class FunctionScope:
    """The names of a function."""

    def __init__(self, function: Function):
        self.held = {parameter.name for parameter in function.parameters}
        self.held.update(declaration.name for declaration in declared_in(function.block))
        assigned, shared = assigned_in(function.block), global_in(function.block)
        self.locals = self.held | (assigned - shared)
        self.given_to_module = (assigned & shared) - self.held


class ModuleScope:
    """The names of a module, which are known in all of its text, whatever stands first."""

    def __init__(self, items):
        functions = [item for item in items if isinstance(item, Function)]
        self.names = assigned_in([item for item in items if not isinstance(item, (Function, Import))])
        for function in functions:
            self.names |= FunctionScope(function).given_to_module
        self.functions: Dict[str, Function] = {}
        for function in functions:
            self.functions.setdefault(function.name, function)
        self.imports: Dict[str, List[str]] = {}
        for item in items:
            if isinstance(item, Import):
                self.imports.update(imported_by(item))

    def find(self, name: str, local_names: Set[str] = frozenset()) -> Meaning:
        """Locals come first, then names of the module, functions, imports and builtins."""
        if name in local_names:
            return Meaning("local")
        if name in self.names:
            return Meaning("module")
        if name in self.functions:
            return Meaning("function", self.functions[name])
        if name in self.imports:
            return Meaning("import", self.imports[name])
        return Meaning("builtin", name) if name in BUILTINS else UNKNOWN
