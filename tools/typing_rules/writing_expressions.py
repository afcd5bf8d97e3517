"""Writes expressions of generated modules: mostly of the kind that is asked for, and astray from it now and then."""
from typing import NamedTuple

from typing_rules.plans import C_WORDS, USUAL_WORDS, VIEW_WORDS, FunctionPlan, Plan

OPERATORS = "+ - * // % & | ^ << >>".split()
COMPARISONS = "< > <= >= == !=".split()
TRIES = 6
STRAYS = ["{c}()", "1()", "({c} + 1)()"]
STRAYS_OF_ALL_FORMS = (
    "{c}()|({c}).y|({c}).shape[0]|-({c}).T|({object}).shape[0]|{view}|{view} + 1|not {view}|{view}.shape|{view}.shape[3]|"
    "{view}.shape[1]|{view}[0, 0, 0, 0]|{view}[..., ...]|{view}[0]|{view}[0, 1]|len({view}[0])|{view}[0, None, 1]|"
    "{view}[::{view}]|{view}[None, None, None]|{view}[{view}]|[{view}]|{view}.size|{view}.append(1)|{view}.copy(1)|"
    "{view} is None|<object>{view}|<int[:]>1|sizeof(object)|{object}[...]|{object}[0, 1:2]|({object}).y|({object})()"
).split("|")

C_FORMS = (
    "{c} {sign} {c}|{c} {sign} {c} {sign} {c}|{c} {sign} 1|{c} {order} {c}|{c} {order} {c} {order} {c}|-{c}|~{c}|+{c}|not {c}|"
    "{c} and {c}|{c} or {c} or {c}|{c} and {c} or {c}|{c} if {c} else {c}|<{type}>{c}|<{usual}>{c}|abs({c})|min({c}, {c})|"
    "max({c}, {c}, {c})"
).split("|")
C_FORMS_OF_OTHERS = (
    "{element}|{element}|{element} {sign} {element}|{view}.shape[0]|len({view})|{object} {order} {any}|{object} is None|"
    "{c} in {object}|not {object}|<{usual}>{object}|{c} {order} {c} {order} {object}|{object} is not None {order} {c}"
).split("|")
OBJECT_FORMS = (
    "{object} {sign} {c}|{c} {sign} {c} {sign} {object}|[{c}, {object}]|({object}, {c})|{c}, |{{c}: {object}}|{object}[{c}]|"
    "{object}[{c}:{object}]|{object}[{c}, {object}]|{object}[{c},]|{c}[{c}]|({object}).pop()|({object}).append({c})|"
    "({object}).foo({c}, {object})|({c}).foo()|len({object})|str({c})|int({object})|min({c}, {object})|max({object})|print({c})|"
    "-{object}|{object} and {c}|{c} or {object}|{object} if {any} else {c}|<object>{c}|"
    "view.array(shape=({c},), itemsize={c}, format='i')"
).split("|")


class ViewText(NamedTuple):
    """A view: its text, the word of its elements, its rank, and whether it is const."""

    text: str
    element: str
    rank: int
    is_const: bool

    def fits(self, other) -> bool:
        """Whether it may be given to one of the other type."""
        return (self.element, self.rank) == (other.element, other.rank) and (other.is_const or not self.is_const)


def view_of(text: str, word: str) -> ViewText:
    """A view of a written type."""
    element = word.removeprefix("const ").split("[")[0]
    return ViewText(text, element, word.count(",") + 1, word.startswith("const "))


class ExpressionWriter:
    """Writes expressions of a function, or of module code where there is none."""

    def __init__(self, plan: Plan, function: FunctionPlan = None):
        self.plan = plan
        self.rng = plan.rng
        self.function = function
        self.variables = (function.variables() if function else []) + plan.names

    def pick(self, forms, depth: int) -> str:
        """One of these forms, with an expression in place of each kind in braces."""
        words = {
            "{c}": lambda: self.expr("c", depth),
            "{object}": lambda: self.expr("object", depth),
            "{any}": lambda: self.expr("any", depth),
            "{view}": lambda: self.view(depth).text,
            "{element}": lambda: self.element(self.view(depth), depth),
            "{sign}": lambda: self.rng.choice(OPERATORS),
            "{order}": lambda: self.rng.choice(COMPARISONS),
            "{type}": lambda: self.rng.choice(C_WORDS),
            "{usual}": lambda: self.rng.choice(USUAL_WORDS),
        }
        text = self.rng.choice(forms)
        for word, write in words.items():
            while word in text:
                text = text.replace(word, write(), 1)
        return text

    def expr(self, kind: str, depth: int) -> str:
        """An expression of a kind, or of any: a C value or an object, and astray a view too."""
        if self.plan.strays():
            return self.stray(depth)
        if kind == "any":
            kind = self.rng.choice(["c", "c", "object"]) if self.plan.is_whole else "c"
        if kind == "view":
            return self.view(depth).text
        if depth <= 0 or self.rng.random() < 0.25:
            return self.atom(kind)
        return f"({self.pick(self.c_forms() if kind == 'c' else self.object_forms(), depth - 1)})"

    def stray(self, depth: int) -> str:
        """An expression that breaks a rule, or nearly."""
        void = [one for one in self.plan.functions if one.kind == "void"]
        if void and self.rng.random() < 0.4:
            return self.call(self.rng.choice(void), depth)
        if self.plan.is_whole and self.rng.random() < 0.8:
            return f"({self.pick(STRAYS_OF_ALL_FORMS, 0)})"
        return f"({self.pick(STRAYS, 0)})"

    def atom(self, kind: str) -> str:
        """A variable, or what has no parts."""
        found = [one.name for one in self.variables if one.kind == kind]
        if found and self.rng.random() < 0.7:
            return self.rng.choice(found)
        if kind == "object":
            return self.rng.choice(["'a'", "None", "[]", "()", "9223372036854775808", "{}"])
        return self.rng.choice(["0", "1", "7", "True", "False", f"sizeof({self.rng.choice(C_WORDS)})", "9223372036854775807"])

    def call(self, function: FunctionPlan, depth: int) -> str:
        """A call of a function."""
        return f"{function.name}({', '.join(self.argument(one, depth - 1) for one in function.parameters)})"

    def argument(self, variable, depth: int) -> str:
        """A value for a variable."""
        if variable.kind == "view" and not self.plan.strays():
            return self.fitting(view_of("", variable.word), depth)
        return self.expr("any" if self.plan.strays() else variable.kind, depth)

    def calls(self, kind: str):
        """Calls of functions that give this kind."""
        return [self.call(one, 1) for one in self.plan.functions if one.kind == kind]

    # Views

    def view(self, depth: int) -> ViewText:
        """A view."""
        named = [view_of(one.name, one.word) for one in self.variables if one.kind == "view"]
        named += [view_of(self.call(one, 0), one.word) for one in self.plan.functions if one.kind == "view" and depth > 0]
        if not named or self.rng.random() < 0.1:
            word = self.rng.choice(VIEW_WORDS)
            named = [view_of(f"(<{word}>{self.atom('object')})", word)]
        view = self.rng.choice(named)
        return view if depth <= 0 or self.rng.random() < 0.4 else self.part(view, depth - 1)

    def part(self, view: ViewText, depth: int) -> ViewText:
        """A part of a view, or another order of its axes, or a copy."""
        index = self.expr("any", depth)
        forms = [("{v}[:]", 0), ("{v}[{i}:]", 0), ("{v}[::{i}]", 0), ("{v}.T", 0), ("{v}.copy()", 0), ("{v}[...]", 0)]
        if view.rank > 1:
            forms += [("{v}[{i}]", -1), ("{v}[{i}, :]", -1), ("{v}[..., {i}]", -1), ("{v}[:, {i}:]", 0), ("{v}[0, None, :]", 0)]
        if view.rank < 3:
            forms += [("{v}[None]", 1), ("{v}[..., None]", 1), ("{v}[None, {i}]", 0)]
        form, more = self.rng.choice(forms)
        return view._replace(text=form.replace("{v}", view.text).replace("{i}", index), rank=view.rank + more)

    def fitting(self, wanted: ViewText, depth: int) -> str:
        """A view that may be given to one of this type, or an object."""
        for _ in range(TRIES):
            found = self.view(depth)
            if found.fits(wanted):
                return found.text
        return self.expr("object", depth)

    def element(self, view: ViewText, depth: int) -> str:
        """An element of a view."""
        indices = [self.expr("any", depth - 1) for _ in range(view.rank)]
        if self.rng.random() < 0.1:
            indices.insert(self.rng.randint(0, len(indices)), "...")
        return f"{view.text}[{', '.join(indices)}]"

    # Forms

    def c_forms(self):
        """Forms of C expressions."""
        forms = C_FORMS + (C_FORMS_OF_OTHERS if self.plan.is_whole else [])
        return forms + self.calls("c") * 2

    def object_forms(self):
        """Forms of objects."""
        return OBJECT_FORMS + self.calls("object") * 2 + self.calls("def")
