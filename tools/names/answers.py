"""The answer of `check` as far as tokens, grammar and names decide it. Where the grammar refuses, the place is that of
the token at which this reader stops, which may be too early, and depths of nesting aren't counted."""
import sys

from modules.lexer import Refused, tokens_of
from modules.statements import ModuleReader
from names.rules import Judge

# A nesting of expressions takes about twenty calls a level.
sys.setrecursionlimit(10_000)


def answer(text: str) -> str:
    """`E<number> line:column` of the first refusal, or `ok`: the tokens come first, then the grammar, then the names.
    Of the broken rules of names the least place counts, and there the least number."""
    try:
        tokens, comments = tokens_of(text)
        found = Judge(ModuleReader(tokens).module(comments)).found
        if found:
            place, number = min(found)
            raise Refused(number, place)
    except Refused as refused:
        return f"E{refused.number} {refused.place[0]}:{refused.place[1]}"
    return "ok"
