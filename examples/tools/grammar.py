"""Reads documents by the grammar for editors, tools/editor/nk.tmLanguage.json, as an editor does.

usage: grammar.py DOCUMENT..             each word to which the grammar gives no name, with its place
       grammar.py --names DOCUMENT       each piece of each line, with its name in the grammar"""

import json
import re
import sys
from pathlib import Path
from typing import Iterator, NamedTuple, Optional

GRAMMAR = json.loads(Path("tools/editor/nk.tmLanguage.json").read_text())
Rule = dict


class Piece(NamedTuple):
    """A part of a line, and its name, if it has one."""

    line: int
    text: str
    name: Optional[str]


def rules(patterns: list[Rule]) -> Iterator[Rule]:
    """The rules of a list, with those that it includes in their places."""
    for rule in patterns:
        rule = GRAMMAR["repository"][rule["include"][1:]] if "include" in rule else rule
        if "match" in rule or "begin" in rule:
            yield rule
        else:
            yield from rules(rule["patterns"])


def first_match(stack: list[Rule], line: str, place: int) -> Optional[tuple[re.Match, Rule, str]]:
    """The match that begins first, of the end of the innermost block and of the rules in it, and of equal ones the first."""
    found = []
    if "end" in stack[-1]:
        found.append((re.compile(stack[-1]["end"]).search(line, place), stack[-1], "end"))
    for rule in rules(stack[-1]["patterns"]):
        kind = "match" if "match" in rule else "begin"
        found.append((re.compile(rule[kind]).search(line, place), rule, kind))
    return min((each for each in found if each[0]), key=lambda each: each[0].start(), default=None)


def named(match: re.Match, rule: Rule, kind: str, line: int) -> Iterator[Piece]:
    """The pieces of a match: its groups, if these have names, or all of it."""
    captures = rule.get({"match": "captures", "begin": "beginCaptures", "end": "endCaptures"}[kind])
    if captures is None:
        yield Piece(line, match.group(), rule.get("name"))
        return
    for group, name in captures.items():
        if match.group(int(group)):
            yield Piece(line, match.group(int(group)), name["name"])


def pieces(document: str) -> Iterator[Piece]:
    stack = [GRAMMAR]
    for number, line in enumerate(document.splitlines(), 1):
        place = 0
        while found := first_match(stack, line, place):
            match, rule, kind = found
            yield Piece(number, line[place : match.start()], None)
            yield from named(match, rule, kind, number)
            place = match.end()
            if kind == "begin":
                stack.append(rule)
            elif kind == "end":
                stack.pop()
            if kind == "end" and place == len(line):
                break
        yield Piece(number, line[place:], None)
    if len(stack) > 1:
        yield Piece(0, "a block that does not end", None)


def main() -> int:
    show_names = sys.argv[1] == "--names"
    unnamed = 0
    for name in sys.argv[1 + show_names :]:
        for piece in pieces(Path(name).read_text()):
            if not piece.text.strip():
                continue
            if show_names:
                print(piece.line, piece.text.strip(), piece.name)
            elif piece.name is None:
                print(f"{name}:{piece.line}: {piece.text.strip()}")
                unnamed += 1
    return 1 if unnamed else 0


sys.exit(main())
