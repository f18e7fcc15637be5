"""Policies, what they mean, and the rows that stand for them.

It covers what returns need: tests and assignments of sw, pt, ethTyp, ethSrc and ethDst. A policy that it does not cover
raises Beyond: one with another field, or one that sends two copies of a packet out of one port.
"""

from __future__ import annotations

import re
from typing import Iterator, NamedTuple, Optional, Union

FIELDS = ("sw", "pt", "ethTyp", "ipProto", "ethSrc", "ethDst", "ip4Src", "ip4Dst", "tcpSrcPort", "tcpDstPort")
HEADER = FIELDS[2:]
COVERED = ("sw", "pt", "ethTyp", "ethSrc", "ethDst")
IN_PORT = 65528


class Beyond(Exception):
    """Something that the model does not cover."""


# ---- terms

Policy = tuple
# ("skip",) ("drop",) ("test", f, n) ("not", p) ("set", f, n) ("sum", ps) ("seq", ps) ("star", p)

TOKEN = re.compile(r"(?:\s|#[^\n]*)*(?:(:?=)\s*([0-9A-Za-z.:]+)|([A-Za-z][A-Za-z0-9]*)|([+;*()]))")


def tokens(text: str) -> Iterator[tuple[str, str]]:
    at = 0
    text = text.rstrip()
    while at < len(text):
        found = TOKEN.match(text, at)
        if found is None:
            raise Beyond(f"no token: {text[at:at + 20]!r}")
        relation, value, name, mark = found.groups()
        yield (relation, value) if relation else ("name", name) if name else (mark, mark)
        at = found.end()
    yield ("", "")


def number(text: str) -> int:
    if re.fullmatch(r"[0-9A-Fa-f]{2}(:[0-9A-Fa-f]{2}){5}", text):
        return int(text.replace(":", ""), 16)
    return int(text, 16) if text.startswith("0x") else int(text)


class Reader:
    """Reads a policy of a text that is one."""

    def __init__(self, text: str) -> None:
        self.tokens = list(tokens(re.sub(r"#[^\n]*", "", text)))
        self.at = 0

    def takes(self, kind: str, word: Optional[str] = None) -> bool:
        token = self.tokens[self.at]
        if token[0] != kind or (word is not None and token[1] != word):
            return False
        self.at += 1
        return True

    def chain(self, mark: str, kind: str, part) -> Policy:
        parts = [part()]
        while self.takes(mark):
            parts.append(part())
        return parts[0] if len(parts) == 1 else (kind, parts)

    def policy(self) -> Policy:
        return self.chain("+", "sum", lambda: self.chain(";", "seq", self.unary))

    def unary(self) -> Policy:
        if self.takes("name", "not"):
            return ("not", self.unary())
        atom = self.atom()
        return ("star", atom) if self.takes("*") else atom

    def atom(self) -> Policy:
        if self.takes("("):
            inner = self.policy()
            if not self.takes(")"):
                raise Beyond("a bracket that is not closed")
            return inner
        kind, name = self.tokens[self.at]
        self.at += 1
        if kind != "name" or name == "dup":
            raise Beyond(f"{name} at the place of an atom")
        if name in ("skip", "drop"):
            return (name,)
        relation, value = self.tokens[self.at]
        self.at += 1
        if name not in COVERED or relation not in ("=", ":=") or (relation == ":=" and name in ("sw", "ethTyp")):
            raise Beyond(f"{name}{relation}{value}")
        return ("test" if relation == "=" else "set", name, number(value))


def read_policy(text: str) -> Policy:
    reader = Reader(text)
    policy = reader.policy()
    if not reader.takes(""):
        raise Beyond("text after a policy")
    return policy


def tests(policy: Policy) -> set[tuple[str, int]]:
    kind = policy[0]
    if kind == "test":
        return {(policy[1], policy[2])}
    if kind in ("not", "star"):
        return tests(policy[1])
    if kind in ("sum", "seq"):
        return {test for part in policy[1] for test in tests(part)}
    return set()


# ---- diagrams: what a policy gives where tests are known

# What is assigned to some fields.
Copy = frozenset


def results(policy: Policy, fixed: dict[str, int], copy: Copy) -> set[Copy]:
    """The copies of one copy. A field that is not fixed has none of the numbers that are tested."""
    kind = policy[0]
    if kind == "skip":
        return {copy}
    if kind == "drop":
        return set()
    if kind == "test":
        _, name, value = policy
        return {copy} if dict(copy).get(name, fixed.get(name)) == value else set()
    if kind == "not":
        return set() if results(policy[1], fixed, copy) else {copy}
    if kind == "set":
        _, name, value = policy
        return {frozenset({**dict(copy), name: value}.items())}
    if kind == "sum":
        return {given for part in policy[1] for given in results(part, fixed, copy)}
    there = {copy}
    if kind == "seq":
        for part in policy[1]:
            there = {given for at in there for given in results(part, fixed, at)}
        return there
    new = there
    while new:
        new = {given for at in new for given in results(policy[1], fixed, at)} - there
        there = there | new
    return there


class Branch(NamedTuple):
    name: str
    value: int
    yes: Diagram
    no: Diagram


# A leaf is a set of copies.
Diagram = Union[frozenset, Branch]


def branch(name: str, value: int, yes: Diagram, no: Diagram) -> Diagram:
    """A test, unless it is redundant: unless the branch without it answers the same."""
    return no if yes == within(no, name, value) else Branch(name, value, yes, no)


def within(diagram: Diagram, name: str, value: int) -> Diagram:
    """The diagram for packets with this number in a field."""
    if isinstance(diagram, Branch):
        if diagram.name == name:
            return within(diagram.yes if diagram.value == value else diagram.no, name, value)
        yes, no = within(diagram.yes, name, value), within(diagram.no, name, value)
        return branch(diagram.name, diagram.value, yes, no)
    return frozenset(copy - {(name, value)} for copy in diagram)


def diagram_of(policy: Policy, left: list[tuple[str, int]], fixed: dict[str, int]) -> Diagram:
    if not left:
        return frozenset(copy - set(fixed.items()) for copy in results(policy, fixed, frozenset()))
    (name, value), rest = left[0], left[1:]
    others = [test for test in rest if test[0] != name]
    return branch(name, value, diagram_of(policy, others, {**fixed, name: value}), diagram_of(policy, rest, fixed))


def paths(diagram: Diagram, fixed: dict[str, int]) -> Iterator[tuple[dict[str, int], frozenset]]:
    """What each path fixes, and its leaf; the branch of a true test comes first."""
    if isinstance(diagram, Branch):
        yield from paths(diagram.yes, {**fixed, diagram.name: diagram.value})
        yield from paths(diagram.no, fixed)
    else:
        yield fixed, diagram


# ---- rows


class Row(NamedTuple):
    """A row: its priority, in port and tag, what it fixes beside them, and its actions."""

    priority: int
    port: int
    tag: Optional[int]
    fixed: tuple[tuple[str, int], ...]
    actions: tuple[tuple, ...]  # ("output", port) ("vlan", id) ("strip",) ("set", field, number)

    def key(self) -> tuple:
        return self[:4]


def actions_of(leaf: frozenset, fixed: dict[str, int], sw: int, port: int, network, stamp: int) -> tuple[tuple, ...]:
    """The actions that send the copies of a leaf, one after another."""
    copies = [dict(copy) for copy in leaf]
    listed = sorted(
        (len([name for name in copy if name in HEADER]), copy.get("pt", port), sorted(copy.items()), copy)
        for copy in copies
        if copy.get("pt", port) in network.switches[sw]
    )
    outs = [out for _, out, _, _ in listed]
    if len(set(outs)) != len(outs):
        raise Beyond("two copies out of one port")
    made: list[tuple] = []
    now = dict(fixed)
    tagged = not network.is_edge(sw, port)
    for _, out, _, copy in listed:
        for name in HEADER:
            wanted = copy.get(name, fixed.get(name))
            if wanted is None and name in now:
                raise Beyond("copies that no list of actions sends")
            if wanted is not None and now.get(name) != wanted:
                made.append(("set", name, wanted))
                now[name] = wanted
        leaves = network.is_edge(sw, out)
        if tagged and leaves:
            made.append(("strip",))
        elif not tagged and not leaves:
            made.append(("vlan", stamp))
        tagged = not leaves
        made.append(("output", IN_PORT if out == port else out))
    return tuple(made)


def rows_of(policy: Policy, sw: int, port: int, network, stamp: int, high: bool) -> list[Row]:
    """The rows of a port, the one that is looked at first in front."""
    left = [test for test in tests(policy) if test[0] not in ("sw", "pt")]
    left.sort(key=lambda test: (FIELDS.index(test[0]), test[1]))
    diagram = diagram_of(policy, left, {"sw": sw, "pt": port})
    edge = network.is_edge(sw, port)
    top = 56000 if not edge else 36000 if high else 16000
    rows = []
    for place, (fixed, leaf) in enumerate(paths(diagram, {})):
        here = {**fixed, "sw": sw, "pt": port}
        actions = actions_of(leaf, here, sw, port, network, stamp)
        rows.append(Row(top - place, port, None if edge else stamp, tuple(sorted(fixed.items())), actions))
    return rows
