"""A grammar in the notation of the Python Language Reference, and a plain recognizer of it."""
import re
from typing import NamedTuple, Optional, Union

from grammar.tokens import KINDS

# A word of the rules: the name of one, a quoted spelling, or a kind of token. What stands in brackets in a rule, and
# what is repeated there, is a symbol too, which is a number.
Symbol = Union[str, int]


class Grammar:
    """The productions of each symbol: rows of symbols that it may stand for."""

    def __init__(self, rules):
        self.productions = {}
        self.words = re.findall(r"'[^']+'|\w+|\S", rules)[::-1]
        while self.words:
            name = self.words.pop()
            self.expect(":")
            self.productions[name] = self.alternatives()
        self.check()

    def expect(self, word):
        """Reads this word."""
        found = self.words.pop()
        if found != word:
            raise ValueError(f"the grammar has {found} and not {word}")

    def alternatives(self):
        """Reads rows with `|` between them."""
        rows = [self.row()]
        while self.words and self.words[-1] == "|":
            self.words.pop()
            rows.append(self.row())
        return rows

    def row(self):
        """Reads parts up to what ends them: a sign, or the name of the next rule."""
        parts = []
        while self.words and self.words[-1] not in ("|", ")", "]") and self.words[-2:-1] != [":"]:
            parts.append(self.part())
        return parts

    def part(self):
        """Reads a part, and what says how often it stands."""
        part = self.words.pop()
        if part == "(":
            part = self.symbol(self.alternatives())
            self.expect(")")
        elif part == "[":
            part = self.symbol([[]] + self.alternatives())
            self.expect("]")
        if self.words and self.words[-1] in ("*", "+"):
            first = [] if self.words.pop() == "*" else [part]
            many = self.symbol([first])
            self.productions[many].append([many, part])
            return many
        return part

    def symbol(self, rows):
        """A new symbol with these productions."""
        number = len(self.productions)
        self.productions[number] = rows
        return number

    def made_of(self, symbols):
        """These symbols, and all that can be made of them."""
        found = set(symbols)
        while True:
            before = len(found)
            for symbol, rows in self.productions.items():
                if any(found.issuperset(row) for row in rows):
                    found.add(symbol)
            if len(found) == before:
                return found

    def check(self):
        """Each word of the rules stands for something, and each symbol for some list of tokens: what begins ends too."""
        parts = {part for rows in self.productions.values() for row in rows for part in row}
        tokens = parts - set(self.productions)
        unknown = {token for token in tokens if token not in KINDS and not str(token).startswith("'")}
        if unknown:
            raise ValueError(f"the grammar doesn't say what these are: {sorted(unknown)}")
        if not self.made_of(tokens).issuperset(self.productions):
            raise ValueError("a symbol of the grammar stands for nothing")


class Place(NamedTuple):
    """A place in a production: its symbol, the part that comes next there, if there is one, and whether that may be no
    token."""

    symbol: Symbol
    part: Optional[Symbol]
    is_free: bool


class Recognizer:
    """Earley's recognizer of the lists of tokens that a symbol, the goal, stands for. Behind each token of a list it
    has states: a place in a production, and the index of the token from which this is read. States are kept for the
    next list, as far as that begins with the same tokens."""

    def __init__(self, grammar, goal):
        self.goal = goal
        self.places = []
        self.starts = {}
        free = grammar.made_of(())
        for symbol, rows in grammar.productions.items():
            self.starts[symbol] = []
            for row in rows:
                self.starts[symbol].append(len(self.places))
                self.places += [Place(symbol, part, part in free) for part in row]
                self.places.append(Place(symbol, None, False))
        self.tokens = []
        # Behind each number of tokens: the states by the part that they await, and whether the tokens are a list of
        # the goal.
        self.awaiting = []
        self.is_goal = []
        self.add_states([(start, 0) for start in self.starts[goal]])

    def add_states(self, states):
        """Adds all states behind one more token to which these lead."""
        at = len(self.awaiting)
        awaiting = {}
        self.awaiting.append(awaiting)
        self.is_goal.append(False)
        seen = set(states)
        states = list(states)
        while states:
            state, origin = states.pop()
            symbol, part, is_free = self.places[state]
            more = []
            if part is None:
                self.is_goal[at] |= symbol == self.goal and origin == 0
                more = [(other + 1, start) for other, start in self.awaiting[origin].get(symbol, ())]
            elif part in awaiting:
                awaiting[part].append((state, origin))
            else:
                awaiting[part] = [(state, origin)]
                more = [(start, at) for start in self.starts.get(part, ())]
            if is_free:
                more.append((state + 1, origin))
            for other in more:
                if other not in seen:
                    seen.add(other)
                    states.append(other)

    def read(self, tokens):
        """How many tokens the longest run has with which some list of the goal begins, and whether the run is one."""
        kept = 0
        while kept < min(len(tokens), len(self.tokens)) and tokens[kept].words == self.tokens[kept].words:
            kept += 1
        self.tokens = tokens[:kept]
        del self.awaiting[kept + 1 :]
        del self.is_goal[kept + 1 :]
        for token in tokens[kept:]:
            awaiting = self.awaiting[kept]
            states = [(state + 1, origin) for word in token.words for state, origin in awaiting.get(word, ())]
            if not states:
                break
            self.tokens.append(token)
            self.add_states(states)
            kept += 1
        return kept, self.is_goal[kept]
