"""The compact text (FORMAT.md) of what `crates/px_type_rows` prints of a typed module: each node before its parts, as form, sign, type and
two numbers, with `/` and the number of its parts."""
import re


class Node:
    def __init__(self, form, sign, type_, number, flag, parts):
        self.form, self.sign, self.type, self.number, self.flag, self.parts = form, sign, type_, number, flag, parts


def _trees(words, count):
    """Trees from the front of a list of words in reverse; without recursion, since chains of statements may be long."""
    return [_tree(words) for _ in range(count)]


def _tree(words):
    fields, count = words.pop().rsplit("/", 1)
    form, sign, rest = fields.split(",", 2)
    type_, number, flag = rest.rsplit(",", 2)
    return Node(form, sign, type_, int(number), int(flag), _trees(words, int(count)))


CONVERSIONS = {"to": "to {}", "box": "box", "unbox": "unbox {}", "truth": "truth", "view": "view {}", "fit": "fit {}"}
UNARY = {"+": "pos", "-": "neg", "~": "inv"}


def _conversion(node):
    return CONVERSIONS[node.sign].format(node.type)


def _bracketed(node):
    return f"[{_conversion(node)}]" if node.form == "converted" else "[]"


def _unconverted(node):
    return node.parts[0] if node.form == "converted" else node


def _operand(node):
    node = _unconverted(node)
    return node.parts[0] if node.form == "kept" else node


def _called(words, nodes, given):
    return "(" + " ".join([words] + [_expression(node, given) for node in nodes]) + ")"


def _step_word(node):
    return ("c" if node.flag else "") + node.sign


def _compared(step):
    left, right = step.parts
    return f" {_bracketed(left)} {step.sign} {_bracketed(right)} {_expression(_operand(right), '')}"


def _comparisons(steps):
    return "(cmp " + _expression(_operand(steps[0].parts[0]), "") + "".join(map(_compared, steps)) + ")"


def _steps(nodes, given):
    for node in nodes:
        given = _expression(node, given)
    return given


def _cast(node, given):
    how = _conversion(node) if node.form == "converted" else "same"
    return f"(cast {how} {_expression(_unconverted(node), given)})"


def _expression(node, given):
    form, parts, type_ = node.form, node.parts, node.type
    if form == "literal":
        return ("True" if node.number else "False") if type_ == "bint" else str(node.number)
    if form == "sizeof":
        return f"(sizeof {type_})"
    if form == "local":
        return f"L{node.number}"
    if form == "given":
        return given
    if form == "converted":
        return _called(_conversion(node), parts, given)
    if form == "cast":
        return _cast(parts[0], given)
    if form == "steps":
        return _steps(parts, given)
    if form == "unary":
        return _called(f"{UNARY[node.sign]} {type_}", parts, given)
    if form == "binary":
        return _called(f"{_step_word(node)} {type_}", parts, given)
    if form == "compare":
        return _comparisons([node])
    if form == "comparisons":
        return _comparisons(parts)
    if form == "not":
        return _called("not", parts, given)
    if form in ("and", "or", "abs", "min", "max"):
        return _called(f"{form} {type_}", parts, given)
    if form == "conditional":
        value, test, other = (_expression(part, given) for part in parts)
        return f"(choose {type_} {test} {value} {other})"
    if form == "call":
        return _called(f"F{node.number}", parts, given)
    if form == "builtin":
        return _called(node.sign, parts, given)
    raise ValueError(form)


def _target(step):
    return f"{_bracketed(step.parts[1])} {_expression(step.parts[0], '')}"


def _guarded(words, node):
    return f"({words} {_expression(node.parts[0], '')} {_block(node.parts[1:])}"


def _if(node):
    arms, rest = node.parts[:node.number], node.parts[node.number:]
    text = " { ".join(_guarded("if", arm) for arm in arms)
    if node.flag:
        text += " " + _block(rest)
    return text + ")" + " })" * (len(arms) - 1)


def _statement(node):
    form, parts = node.form, node.parts
    if form == "expression":
        return _called("do", parts, "")
    if form == "assign":
        return f"(set {_target(node)} {_expression(_unconverted(parts[1]), '')})"
    if form == "assign_each":
        return "(set " + " ".join(map(_target, parts[:-1])) + f" {_expression(parts[-1], '')})"
    if form == "augment":
        target, fit = parts
        step = _unconverted(fit)
        before, value = step.parts
        return (f"(aug {_step_word(step)} {step.type} {_bracketed(before)} {_expression(target, '')} {_expression(value, '')} "
                f"{_bracketed(fit)})")
    if form == "declare":
        return _joined(parts)
    if form == "declarator":
        return f"(set {_bracketed(parts[0])} L{node.number} {_expression(_unconverted(parts[0]), '')})" if parts else ""
    if form in ("break", "continue"):
        return f"({form})"
    if form == "return":
        return _called("return", parts, "")
    if form == "if":
        return _if(node)
    if form == "while":
        return _guarded("while", node) + ")"
    if form == "range":
        head = [_expression(part, "") for part in parts[:node.number + 1]]
        return "(range " + " ".join(head) + " " + _block(parts[node.number + 1:]) + ")"
    if form in ("pass", "global"):
        return ""
    raise ValueError(form)


def _joined(nodes):
    return " ".join(text for text in map(_statement, nodes) if text)


def _block(nodes):
    text = _joined(nodes)
    return "{ " + text + " }" if text else "{ }"


def _function(words, is_named):
    """A function's name and text; where names are wanted, its variables stand by theirs."""
    name, gives, lock, exceptions, counts = (words.pop() for _ in range(5))
    params, count = map(int, counts.split("/"))
    locals_ = [words.pop().split(":") for _ in range(count)]
    told = [f"{local}: {type_}" for local, type_ in locals_]
    held = ", ".join(told[:params]) + ("; " + ", ".join(told[params:]) if count > params else "")
    body = _block(_trees(words, int(words.pop().split("/")[1])))
    if is_named:
        body = re.sub(r"\bL(\d+)\b", lambda slot: locals_[int(slot[1])][0], body)
    flags = "".join(f" {word}" for word in (lock, exceptions) if word != "-")
    return name, f" {name}({held}) -> {gives}{flags} {body}"


def compact(text, is_named=False):
    """The compact text of a printed module; a refusal is itself. Where names are wanted, variables and functions stand by theirs and not by
    their places."""
    if not text.startswith("code/"):
        return text
    words = text.split(" ")[::-1]
    given = _block(_trees(words, int(words.pop().split("/")[1])))
    functions = []
    while words and words[-1] == "function":
        words.pop()
        name, told = _function(words, is_named)
        functions.append(name)
        given += told
    words.pop()
    if is_named:
        given = re.sub(r"\bF(\d+)\b", lambda place: functions[int(place[1])], given)
    return given + (" constants " + " ".join(words[::-1]) if words else "")
