"""Seeded small modules that mostly break no rule of names, with the answers of the plain second reading of the rules of types.

    python3 -m typing_rules.generated COUNT SEED [--all]      (in tools/)

prints rows of a text and its answer. They have C values alone, or with `--all` every form of the language. A module is planned
first: its functions and variables with their types. A careful module then mostly has values where they fit, and a careless one
strays from that now and then."""
import random
import sys
from urllib.parse import quote

from typing_rules.answers import typed_tree
from typing_rules.plans import Plan
from typing_rules.writing import ModuleWriter

# The characters that stand for themselves in a row.
PLAIN = "".join(c for c in map(chr, range(32, 127)) if c not in "%|")

# How likely a choice strays.
CAREFUL = 0.0
NEARLY_CAREFUL = 0.01
CARELESS = 0.05


def module(rng: random.Random, is_whole: bool) -> str:
    """The text of a module."""
    return ModuleWriter(Plan(rng, rng.choice([CAREFUL, NEARLY_CAREFUL, CARELESS]), is_whole)).text()


def rows(count: int, seed: int, is_whole: bool):
    """So many rows."""
    rng = random.Random(seed)
    for _ in range(count):
        text = module(rng, is_whole)
        yield f"{quote(text, safe=PLAIN)}|{quote(typed_tree(text), safe=PLAIN)}"


def main():
    numbers = [int(word) for word in sys.argv[1:] if word != "--all"]
    for row in rows(numbers[0], numbers[1] if len(numbers) > 1 else 1, "--all" in sys.argv):
        print(row)


if __name__ == "__main__":
    main()
