"""The typed tree of a module as compact text, which FORMAT.md defines, or the first rule that the module breaks."""
import sys
from typing import Dict, List

from modules.lexer import Place, Refused, tokens_of
from modules.statements import ModuleReader
from modules.tree import Function, Import, Module
from names.directives import pairs_of
from names.rules import Judge
from names.scopes import ModuleScope, declared_in
from typing_rules.constants import Constants
from typing_rules.scopes import Code, Local, Signature, places_of_locals
from typing_rules.statements import StatementTyper
from typing_rules.value_types import OBJECT, VOID, is_view

# A nesting of expressions takes about twenty calls a level.
sys.setrecursionlimit(10_000)

DEFAULTS = {"boundscheck": True, "wraparound": True, "cdivision": False}


class ModuleTyper:
    """Types a module that breaks no rule of an earlier phase."""

    def __init__(self, module: Module):
        self.module = module
        self.scope = ModuleScope(module.items)
        self.found: List[Place] = []
        self.constants = Constants()
        self.directives = self.directives_of_module()
        self.functions = [item for item in module.items if isinstance(item, Function)]
        self.loops = 0
        self.codes = {}
        self.signatures: Dict[str, Signature] = {}
        for function in self.functions:
            self.head(function)

    def directives_of_module(self) -> Dict[str, bool]:
        """What leading comments set; of two values the later one counts."""
        directives = dict(DEFAULTS)
        for comment in self.module.comments:
            directives.update((name, value == "True") for name, value in pairs_of(comment.text) if name in DEFAULTS)
        return directives

    def typer(self, code: Code) -> StatementTyper:
        """A typer of statements."""
        return StatementTyper(self.scope, self.signatures, code, self.constants, self.found, loops=self.loops)

    def head(self, function: Function):
        """The types of a function's parameters, of what it gives, and of its locals."""
        module_code = self.typer(Code([], None, True, self.directives))
        parameters = []
        for one in function.parameters:
            kind = OBJECT if one.typing is None else module_code.declared(one.typing, one.place)
            if one.is_not_none and kind is not None and not is_view(kind):
                module_code.refuse(one.place)
            parameters.append(Local(one.name, kind))
        gives = OBJECT
        if function.gives is not None:
            gives = VOID if function.gives == "void" else module_code.declared(function.gives, function.place)
        self.signatures[function.name] = Signature(len(self.signatures), [one.kind for one in parameters], gives)
        if gives == OBJECT:
            self.constants.name(function.place, None)
        directives = dict(self.directives)
        directives.update((decorator.names[-1], decorator.is_true) for decorator in function.decorators)
        declared = parameters + self.other_locals(function, module_code)
        self.codes[function.name] = Code(declared, gives, False, directives)

    def other_locals(self, function: Function, typer: StatementTyper) -> List[Local]:
        """The locals that are no parameters, in the order of their declarations."""
        kinds = {}
        for one in declared_in(function.block):
            kinds[one.name] = typer.declared(one.typing, one.typing_place)
        places = places_of_locals(function)
        return [Local(name, kinds.get(name, OBJECT)) for name in sorted(places, key=places.get)]

    def text(self) -> str:
        """The compact text of the module. Parallel loops are numbered in the order of the text."""
        outside = self.typer(Code([], None, True, self.directives))
        words, functions = ["{"], []
        for item in self.module.items:
            if isinstance(item, Function):
                functions.append(self.function(item))
            elif not isinstance(item, Import):
                outside.loops = self.loops
                words.extend(outside.statement(item))
                self.loops = outside.loops
        return self.constants.numbered(" ".join([*words, "}", *functions]))

    def function(self, function: Function) -> str:
        """The compact text of a function."""
        code = self.codes[function.name]
        typer = self.typer(code)
        block = typer.block(function.block)
        self.loops = typer.loops
        count = len(function.parameters)
        words = [f"{local.name}: {local.kind}" for local in code.locals]
        held = ", ".join(words[:count]) + ("; " + ", ".join(words[count:]) if words[count:] else "")
        clauses = [function.lock] * bool(function.lock) + ["noexcept"] * function.is_noexcept
        return " ".join([f"{function.name}({held}) -> {code.gives}", *clauses, block])


def typed_tree(text: str) -> str:
    """`E<number> line:column` of the first refusal, or the compact text of the typed tree: tokens come first, then the grammar,
    names, and types."""
    try:
        tokens, comments = tokens_of(text)
        module = ModuleReader(tokens).module(comments)
        broken = Judge(module).found
        if broken:
            place, number = min(broken)
            raise Refused(number, place)
        typer = ModuleTyper(module)
        found = typer.text()
        if typer.found:
            raise Refused(12, min(typer.found))
    except Refused as refused:
        return f"E{refused.number} {refused.place[0]}:{refused.place[1]}"
    return found
