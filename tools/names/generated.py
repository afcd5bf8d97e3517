"""Seeded small modules that the grammar accepts, with the answers of the plain second reading. About half break a rule.

    python3 -m names.generated COUNT SEED      (in tools/)

prints rows of a text and its answer. Names come from a small pool, so that variables, functions, imports and builtins
meet often. A module is planned first: what it assigns, defines and imports. A careful module then uses names by the
plan, and a careless one strays from it now and then."""
import random
import sys
from urllib.parse import quote

from names.answers import answer
from names.plans import CAREFUL, CARELESS, Plan
from names.writing import ModuleWriter

# The characters that stand for themselves in a row.
PLAIN = "".join(c for c in map(chr, range(32, 127)) if c not in "%|")


def module(rng: random.Random) -> str:
    """The text of a module."""
    risk = rng.choice([CAREFUL, CARELESS])
    return ModuleWriter(rng, risk, Plan(rng)).text()


def rows(count: int, seed: int):
    """So many rows."""
    rng = random.Random(seed)
    for _ in range(count):
        text = module(rng)
        yield f"{quote(text, safe=PLAIN)}|{answer(text)}"


def main():
    for row in rows(int(sys.argv[1]), int(sys.argv[2]) if len(sys.argv) > 2 else 1):
        print(row)


if __name__ == "__main__":
    main()
