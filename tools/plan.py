"""The rows that `nkctl rules` prints, and the tables that the updates plan with them, for the scripts beside this file."""

from __future__ import annotations

from dataclasses import dataclass
from typing import NamedTuple


class Fault(Exception):
    """What is wrong with a text."""


class Row(NamedTuple):
    """A row: its priority and pattern, which are its key, and its actions."""

    priority: int
    pattern: str
    actions: str

    @property
    def key(self) -> tuple[int, str]:
        return self.priority, self.pattern

    def text(self) -> str:
        return f"{self.priority} {self.pattern} : {self.actions}"


# The rows of each port of a switch, and whether a link is there.
Port = tuple[bool, list[Row]]
# The ports of each switch.
Version = dict[int, list[Port]]


def read_row(text: str) -> Row:
    """A row of the form `PRIORITY in=B vlan=T f=value .. : ACTIONS`."""
    left, actions = text.split(" : ")
    priority, pattern = left.split(" ", 1)
    return Row(int(priority), pattern, actions)


def read_plan(rules: str) -> Plan:
    """The versions that `nkctl rules` prints, version 0 without rows in front."""
    versions: list[Version] = []
    stamps = [0]
    for number, line in enumerate(rules.splitlines(), 1):
        words = line.split()
        if words[:1] == ["nkctl:"]:
            raise Fault(line)
        try:
            if words[0] == "policy":
                versions.append({})
                stamps.append(int(words[3]))
            elif words[0] == "switch":
                listed = versions[-1].setdefault(int(words[1]), [])
            else:
                add_row(listed, read_row(line))
        except (ValueError, IndexError, UnboundLocalError):
            raise Fault(f"line {number} is none that `nkctl rules` prints: {line}") from None
    if not versions:
        raise Fault("there are no rows: they have to be what `nkctl rules` prints")
    empty = {switch: [(linked, []) for linked, _ in listed] for switch, listed in versions[0].items()}
    return Plan([empty, *versions], stamps)


def add_row(ports: list[Port], row: Row) -> None:
    """Adds a row to the last port, or to the next one."""
    port, tag = row.pattern.split()[:2]
    if not ports or ports[-1][1][0].pattern.split()[0] != port:
        ports.append((tag != "vlan=none", []))
    ports[-1][1].append(row)


# ---- phases


def installed(version: Version, switch: int, linked: bool) -> list[Row]:
    """The rows of a version at the linked ports of a switch, or at its edge ports."""
    return [row for at, rows in version[switch] if at == linked for row in rows]


def all_rows(version: Version, switch: int) -> list[Row]:
    return [row for _, rows in version[switch] for row in rows]


@dataclass(frozen=True)
class Phase:
    name: str  # opening, idle, install, flip, drain, clean
    policy: int = 0
    round: int = 0

    def text(self) -> str:
        if self.name == "opening":
            return self.name
        return f"{self.name} {self.policy}" + (f" {self.round}" if self.name == "flip" else "")


def read_phase(text: str) -> Phase:
    """A phase as a report has it after the word `phase`: `flip 2 1`."""
    name, *numbers = text.split()
    wanted = {"opening": 0, "flip": 2}.get(name, 1)
    if name not in ("opening", "idle", "install", "flip", "drain", "clean") or len(numbers) != wanted:
        raise Fault(f"{text} is no phase")
    return Phase(name, *map(int, numbers))


class Plan:
    """The rows of all versions, and what a switch holds once the work of a phase is done."""

    def __init__(self, versions: list[Version], stamps: list[int]) -> None:
        self.versions, self.stamps = versions, stamps

    def upper(self, policy: int) -> Version:
        """The version whose rows a flip adds or deletes: that of the odd policy."""
        return self.versions[policy if policy % 2 else policy - 1]

    def rounds(self, policy: int) -> int:
        return max(len(rows) for ports in self.upper(policy).values() for linked, rows in ports if not linked)

    def planned(self, phase: Phase, switch: int) -> set[Row]:
        """By what each phase leaves, and not by its changes."""
        new, old = self.versions[phase.policy], self.versions[phase.policy - 1]
        inner = {*installed(new, switch, True), *installed(old, switch, True)}
        odd = phase.policy % 2 == 1
        if phase.name in ("opening", "idle", "clean"):
            return set(all_rows(new, switch)) if phase.policy else set()
        if phase.name == "install":
            entering = set() if odd else set(installed(new, switch, False))
            return inner | set(installed(old, switch, False)) | entering
        done = phase.round if phase.name == "flip" else self.rounds(phase.policy)
        lower = set(installed(old if odd else new, switch, False))
        upper = [rows[:done] if odd else rows[: max(0, len(rows) - done)] for linked, rows in self.upper(phase.policy)[switch] if not linked]
        return inner | lower | {row for rows in upper for row in rows}


# ---- the order of rows

# The fields of a match in the order of OpenFlow 1.0.0, section 5.2.3: the wildcard bit, and the number of bytes.
MATCH = {
    "in": (0, 2), "ethSrc": (2, 6), "ethDst": (3, 6), "vlan": (1, 2), "pcp": (20, 2), "ethTyp": (4, 2), "tos": (21, 1),
    "ipProto": (5, 1), "pad": (None, 2), "ip4Src": (8, 4), "ip4Dst": (14, 4), "tcpSrcPort": (6, 2), "tcpDstPort": (7, 2),
}  # fmt: skip
WHOLE_ADDRESS = 63


def number_of(name: str, text: str) -> int:
    """The number that a field of a row stands for, of an address with a mask that of the address."""
    text = text.partition("/")[0]
    if name == "vlan" and text == "none":
        return 0xFFFF
    if name.startswith("eth") and ":" in text:
        return int(text.replace(":", ""), 16)
    if name.startswith("ip4"):
        return int.from_bytes(bytes(map(int, text.split("."))), "big")
    return int(text, 0)


def match_bytes(pattern: str) -> bytes:
    """A pattern on the wire."""
    fixed = dict(word.split("=") for word in pattern.split())
    wild, body = 0, b""
    for name, (bit, size) in MATCH.items():
        if name not in fixed and bit is not None:
            wild |= (WHOLE_ADDRESS if name.startswith("ip4") else 1) << bit
        body += number_of(name, fixed.get(name, "0")).to_bytes(size, "big")
    return wild.to_bytes(4, "big") + body


def rank(row: Row) -> tuple[int, bytes]:
    return -row.priority, match_bytes(row.pattern)


def verdicts(planned: set[Row], reported: set[Row]) -> list[str]:
    """What there is to say of each key at which the two sets differ, by the order of the keys."""
    wanted = {row.key: row for row in planned - reported}
    there = {row.key: row for row in reported - planned}
    rows = sorted((wanted | there).values(), key=rank)
    return [f"{'missing' if row.key not in there else 'actions' if row.key in wanted else 'surplus'} {row.text()}" for row in rows]


def verdict(planned: set[Row], reported: set[Row]) -> str:
    """What an audit says: `same`, or the row at the least key at which the two sets differ."""
    return next(iter(verdicts(planned, reported)), "same")
