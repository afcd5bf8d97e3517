"""What is known of the functions of a module and of their variables before a statement is looked at."""
from dataclasses import fields, is_dataclass
from typing import Dict, List, NamedTuple, Optional

from modules.lexer import Place
from modules.tree import Function, Name
from names.scopes import FunctionScope, declared_in
from typing_rules.value_types import Type


class Local(NamedTuple):
    """A local: its name, and its type where that isn't broken."""

    name: str
    kind: Optional[Type]


class Signature(NamedTuple):
    """A function: its number, the types of its parameters and what it gives, each where it isn't broken."""

    number: int
    parameters: List[Optional[Type]]
    gives: Optional[Type]


class Code(NamedTuple):
    """The function that is looked at, or module code: its locals in the order of their slots, what it gives, and whether it is
    module code; and its directives."""

    locals: List[Local]
    gives: Optional[Type]
    is_module: bool
    directives: Dict[str, bool]

    def slot(self, name: str) -> int:
        """The slot of a local."""
        return next(at for at, local in enumerate(self.locals) if local.name == name)


def names_in(node):
    """All names that are read, called or assigned below a node."""
    if isinstance(node, Name):
        yield node
    elif isinstance(node, (list, tuple)):
        for part in node:
            yield from names_in(part)
    elif is_dataclass(node):
        for one in fields(node):
            yield from names_in(getattr(node, one.name))


def places_of_locals(function: Function) -> Dict[str, Place]:
    """The locals of a function that are no parameters, each with the place of its declaration. That of a local that isn't
    declared is where its name stands first in the body."""
    parameters = {parameter.name for parameter in function.parameters}
    places = {}
    for name in names_in(function.block):
        places[name.name] = min(name.place, places.get(name.name, name.place))
    places.update((declaration.name, declaration.place) for declaration in declared_in(function.block))
    local_names = FunctionScope(function).locals - parameters
    return {name: places[name] for name in local_names}
