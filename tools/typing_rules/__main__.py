"""Prints the compact text of the typed tree of a module, or its first refusal.

    python3 -m typing_rules FILE      (in tools/)
"""
import sys

from typing_rules.answers import typed_tree


def main():
    with open(sys.argv[1], encoding="utf-8", newline="") as file:
        print(typed_tree(file.read()))


if __name__ == "__main__":
    main()
