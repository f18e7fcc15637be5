"""Pairs of policies of which the second was made from the first, for the script `pairs` beside this file."""

from __future__ import annotations

import random
from typing import Callable

from netkat import DROP, IPV4, SKIP, Policy

VALUES = {
    "sw": [1, 2],
    "pt": [1, 2, 3],
    "ethTyp": [IPV4, 2054, 34525],
    "ipProto": [6, 17, 1],
    "ethSrc": [0, 1, 2],
    "ethDst": [0, 5, 6],
    "ip4Src": [1, 2],
    "ip4Dst": [167772161, 167772162],
    "tcpSrcPort": [80, 443],
    "tcpDstPort": [22, 80],
}


def one_of(kind: str, parts: list[Policy]) -> Policy:
    """A sum or a sequence, or its only part."""
    return parts[0] if len(parts) == 1 else (kind, *parts)


class Drawing:
    """Policies over a few fields with two values each."""

    def __init__(self, draw: random.Random) -> None:
        self.draw = draw
        self.fields = draw.sample(list(VALUES), draw.randint(2, 4))
        self.values = {name: draw.sample(VALUES[name], min(2, len(VALUES[name]))) for name in self.fields}

    def literal(self, kind: str) -> Policy:
        name = self.draw.choice(self.fields)
        return (kind, name, self.draw.choice(self.values[name]))

    def predicate(self, depth: int) -> Policy:
        kind = self.draw.randrange(8)
        if depth == 0 or kind < 4:
            return self.literal("test")
        if kind == 4:
            return self.draw.choice([SKIP, DROP, self.literal("test")])
        if kind == 5:
            return ("not", self.predicate(depth - 1))
        parts = [self.predicate(depth - 1) for _ in range(self.draw.randint(2, 3))]
        return (self.draw.choice(["sum", "seq"]), *parts)

    def term(self, depth: int) -> Policy:
        kind = self.draw.randrange(10)
        if depth == 0 or kind < 2:
            return self.literal(self.draw.choice(["test", "set", "set"]))
        if kind == 2:
            return self.predicate(depth)
        if kind == 3:
            return ("star", self.term(depth - 1))
        parts = [self.term(depth - 1) for _ in range(self.draw.randint(2, 3))]
        return ("sum" if kind < 7 else "seq", *parts)

    def rule(self) -> Policy:
        """Some tests and then some assignments."""
        tests = [self.literal("test") for _ in range(self.draw.randint(1, 2))]
        return ("seq", *tests, *(self.literal("set") for _ in range(self.draw.randint(1, 2))))

    def access_list(self) -> Policy:
        """Rules of which the first that hits counts."""
        rules = [self.rule() for _ in range(self.draw.randint(2, 4))]
        whole = rules.pop()
        for rule in reversed(rules):
            whole = ("sum", rule, ("seq", ("not", rule[1]), whole))
        return whole

    def policy(self) -> Policy:
        kind = self.draw.randrange(4)
        if kind == 0:
            return self.access_list()
        if kind == 1:
            return ("sum", *(self.rule() for _ in range(self.draw.randint(2, 5))))
        return self.term(3)


# ---- changes that keep the meaning


def keepers(draw: random.Random, drawing: Drawing, part: Policy, is_test: bool) -> list[Callable[[], Policy]]:
    """What a part can be replaced by without a change of meaning."""
    kind = part[0]
    ways: list[Callable[[], Policy]] = [
        lambda: ("sum", part, part),
        lambda: ("sum", DROP, part),
        lambda: ("seq", SKIP, part),
        lambda: ("sum", part, ("seq", drawing.literal("test"), part)),
        lambda: cases(drawing.literal("test"), part),
    ]
    if kind == "sum":
        ways.append(lambda: ("sum", *draw.sample(part[1:], len(part) - 1)))
    if kind == "seq" and len(part) > 2 and part[1][0] == "sum":
        ways.append(lambda: ("sum", *(("seq", inner, *part[2:]) for inner in part[1][1:])))
    if kind == "star":
        ways += [lambda: ("sum", SKIP, ("seq", part[1], part)), lambda: ("star", part), lambda: ("star", ("sum", SKIP, part[1]))]
    if kind == "set":
        ways += [lambda: ("seq", part, ("test", *part[1:])), lambda: ("seq", part, part)]
    if kind in ("test", "not") or is_test:
        ways.append(lambda: ("not", ("not", part)))
    if kind == "not" and part[1][0] in ("sum", "seq"):
        dual = "seq" if part[1][0] == "sum" else "sum"
        ways.append(lambda: (dual, *(("not", inner) for inner in part[1][1:])))
    if not is_test:
        ways.append(lambda: ("sum", part, absent(draw)))
    return ways


def cases(test: Policy, part: Policy) -> Policy:
    return ("sum", ("seq", test, part), ("seq", ("not", test), part))


def absent(draw: random.Random) -> Policy:
    """A term that gives nothing of a well-shaped packet."""
    shapes: list[Policy] = [
        ("seq", ("test", "ethTyp", 2054), ("test", "ip4Dst", 1)),
        ("seq", ("not", ("test", "ethTyp", IPV4)), ("test", "tcpDstPort", 80)),
        ("seq", ("test", "ipProto", 1), ("test", "tcpSrcPort", 80)),
    ]
    return ("seq", draw.choice(shapes), ("set", "pt", 2))


# ---- changes that may change it


def changers(draw: random.Random, drawing: Drawing, part: Policy, is_test: bool) -> list[Callable[[], Policy]]:
    """What a part can be replaced by, whatever it means."""
    kind = part[0]
    ways: list[Callable[[], Policy]] = [lambda: drawing.predicate(1) if is_test else drawing.term(1)]
    if kind in ("test", "set"):
        ways += [lambda: (kind, part[1], draw.choice(drawing.values.get(part[1], [part[2]])))] * 3
    if kind in ("sum", "seq"):
        ways += [lambda: one_of(kind, without(draw, list(part[1:]))), lambda: (kind, *draw.sample(part[1:], len(part) - 1))] * 2
    if kind == "sum":
        ways.append(lambda: ("sum", *part[1:], drawing.predicate(1) if is_test else drawing.rule()))
    if kind == "not":
        ways.append(lambda: part[1])
    if kind == "star":
        ways += [lambda: part[1], lambda: ("sum", SKIP, part[1]), lambda: ("sum", SKIP, part[1], ("seq", part[1], part[1]))]
    if not is_test:
        ways.append(lambda: ("seq", drawing.literal("test"), part))
    return ways


def without(draw: random.Random, parts: list[Policy]) -> list[Policy]:
    parts.pop(draw.randrange(len(parts)))
    return parts


def places(policy: Policy, is_test: bool = False) -> list[tuple[tuple[int, ...], bool]]:
    """The places of all parts, and whether each stands below a `not`."""
    found = [((), is_test)]
    for number, part in enumerate(policy):
        if isinstance(part, tuple):
            below = is_test or policy[0] == "not"
            found += [((number, *path), inner) for path, inner in places(part, below)]
    return found


def part_at(policy: Policy, path: tuple[int, ...]) -> Policy:
    for number in path:
        policy = policy[number]
    return policy


def replaced(policy: Policy, path: tuple[int, ...], part: Policy) -> Policy:
    if not path:
        return part
    number, *rest = path
    return (*policy[:number], replaced(policy[number], tuple(rest), part), *policy[number + 1 :])


def changed(draw: random.Random, drawing: Drawing, policy: Policy, ways) -> Policy:
    path, is_test = draw.choice(places(policy))
    way = draw.choice(ways(draw, drawing, part_at(policy, path), is_test))
    return replaced(policy, path, way())


def draw_pair(draw: random.Random) -> tuple[Policy, Policy]:
    """Two policies, and now and then one that duplicates."""
    drawing = Drawing(draw)
    first = drawing.policy()
    second = first
    keeps = draw.random() < 0.04
    for _ in range(draw.randint(1, 4)):
        second = changed(draw, drawing, second, keepers)
    for _ in range(0 if keeps else draw.randint(2, 7)):
        second = changed(draw, drawing, second, changers)
    if draw.random() < 0.01:
        second = ("seq", second, ("dup",))
    return (first, second) if draw.random() < 0.5 else (second, first)
