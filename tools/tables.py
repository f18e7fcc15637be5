"""The rows that `nkctl rules` prints, switch by switch, and the batches of flow mods that updates make of them."""

from __future__ import annotations

from dataclasses import dataclass, field
from typing import Dict, Iterable, Iterator, List, Optional, Tuple

from meaning import FIELDS, Fault, Packet, read_value

IN_PORT = 65528


@dataclass
class Row:
    """A row, its line, and what the line says."""

    text: str
    priority: int
    port: int
    tag: Optional[int]
    pattern: Dict[str, int]
    actions: List[List[str]]

    @property
    def is_ingress(self) -> bool:
        """Whether it is of an edge port: hosts send packets without a tag."""
        return self.tag is None

    def hits(self, packet: Packet, tag: Optional[int]) -> bool:
        fits = all(packet[FIELDS.index(name)] == value for name, value in self.pattern.items())
        return fits and packet[1] == self.port and tag == self.tag

    def plain(self) -> str:
        """The row without its priority and the stamps, which differ between any two policies."""
        _, _, rest = self.text.partition(" ")
        left, _, right = rest.partition(" : ")
        words = [word for word in left.split() if not word.startswith("vlan=")]
        actions = ["vlan" if action.startswith("vlan ") else action for action in right.split(", ")]
        return " ".join(words) + " : " + ", ".join(actions)


@dataclass
class Policy:
    number: int
    stamp: int
    switches: Dict[int, List[Row]] = field(default_factory=dict)


def read_row(text: str) -> Row:
    """A row of the form `PRIORITY in=B vlan=T f=value .. : ACTIONS`."""
    left, right = text.split(" : ")
    priority, *words = left.split()
    named = dict(word.split("=") for word in words)
    port, tag = int(named.pop("in")), named.pop("vlan")
    actions = [] if right == "drop" else [action.split() for action in right.split(", ")]
    pattern = {name: read_value(value) for name, value in named.items()}
    return Row(text, int(priority), port, None if tag == "none" else int(tag), pattern, actions)


def read_tables(lines: Iterable[str]) -> List[Policy]:
    """The policies with their rows."""
    policies: List[Policy] = []
    rows: List[Row] = []
    for number, line in enumerate(lines, 1):
        line = line.rstrip("\n")
        if line.startswith(("nkctl: ", "usage: ")):
            raise Fault(line)
        try:
            word, *rest = line.split()
            if word == "policy":
                policies.append(Policy(int(rest[0]), int(rest[2])))
            elif word == "switch":
                rows = policies[-1].switches.setdefault(int(rest[0]), [])
            else:
                rows.append(read_row(line))
        except (ValueError, IndexError, KeyError):
            raise Fault(f"line {number} is none that `nkctl rules` prints: {line}") from None
    if not policies:
        raise Fault("there are no rows: it has to be what `nkctl rules` prints")
    return policies


def edge_lists(policies: List[Policy], number: int, switch: int) -> Iterator[List[Row]]:
    """The lists of a policy at the edge ports of a switch, by falling priority."""
    rows = [row for row in policies[number - 1].switches[switch] if row.is_ingress]
    for port in dict.fromkeys(row.port for row in rows):
        yield [row for row in rows if row.port == port]


def batch(policies: List[Policy], phase: Tuple, switch: int) -> List[Tuple[str, Row]]:
    """The flow mods of a phase for a switch, in the order in which they are sent: `add` or `delete` and the row."""
    name, *numbers = phase
    if name not in ("install", "flip", "clean", "tidy", "sweep"):
        return []
    number = numbers[0]
    if name == "install":
        return [("add", row) for row in policies[number - 1].switches[switch] if number % 2 == 0 or not row.is_ingress]
    if name == "clean":
        return [("delete", row) for row in policies[number - 2].switches[switch] if number % 2 or not row.is_ingress]
    if name == "tidy":
        return [("delete", row) for row in policies[number - 2].switches[switch] if row.is_ingress]
    if name == "sweep":
        swept = [policy for policy in policies[: number - 1] if policy.stamp == numbers[1]][-1]
        return [("delete", row) for row in swept.switches[switch] if not row.is_ingress]
    turn = numbers[1]
    if number % 2:
        return [("add", rows[turn - 1]) for rows in edge_lists(policies, number, switch) if len(rows) >= turn]
    before = edge_lists(policies, number - 1, switch)
    return [("delete", rows[len(rows) - turn]) for rows in before if len(rows) >= turn]
