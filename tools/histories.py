"""The hop histories that NetKAT gives a packet: in; (dup; p; dup; t)*; dup; p; out, followed up to the copies of a report."""

from __future__ import annotations

from dataclasses import dataclass, field
from typing import List, Optional, Set

from documents import Document, PacketLine
from meaning import FIELDS, HEADER, Meaning, Packet, show_value


@dataclass
class Node:
    """A packet at the switch that it came to, with its history as a text."""

    text: str
    packet: Packet
    hops: int = 0
    is_open: bool = False
    children: List["Node"] = field(default_factory=list)


class Mismatch(Exception):
    """Why a policy does not give these histories."""


def step_text(before: Packet, after: Packet) -> str:
    """A further packet of a history: its place, and the header fields that changed there."""
    changed = [name for name in HEADER if before[FIELDS.index(name)] != after[FIELDS.index(name)]]
    fields = ",".join(f"{name}={show_value(name, after[FIELDS.index(name)])}" for name in changed)
    return f">{after[0]}:{after[1]}" + (f"{{{fields}}}" if fields else "")


class Tree:
    """What a policy makes of a packet, up to the copies that are still open in a report. It has each history once."""

    def __init__(self, document: Document, policy: Optional[Meaning], line: PacketLine, done: List[str], opened: List[str]):
        self.document, self.policy = document, policy
        self.done, self.open = set(done), set(opened)
        self.found: Set[str] = set()
        self.handled = 0  # copies that took a further hop
        place = line.packet[:2]
        self.root = Node(f"{place[0]}:{place[1]}", line.packet)
        if policy is not None and line.tag is None:
            self.grow()
        self.compare()

    def grow(self) -> None:
        """Takes all hops that a copy of the report has taken."""
        waiting = [self.root]
        while waiting:
            node = waiting.pop()
            if node is not self.root:
                self.handled += 1
            self.hop(node)
            waiting += [child for child in node.children if not child.is_open]

    def hop(self, node: Node) -> None:
        """Lets the switch handle a packet: copies at edge ports are done, those at linked ports go on."""
        if node.hops == self.document.hops:
            raise Mismatch(f"{node.text} took all its hops and is not open")
        # the usual order of copies: fewer changed fields first, then by port and values
        for given in sorted(self.policy(node.packet), key=lambda given: order(node.packet, given)):
            text, place = node.text + step_text(node.packet, given), given[:2]
            if place in self.document.links:
                moved = self.document.links[place] + given[2:]
                text += f">{moved[0]}:{moved[1]}"
                node.children.append(Node(text, moved, node.hops + 1, text in self.open))
                if text in self.open:
                    self.found.add(text)
            elif self.document.is_edge(place):
                if text not in self.done:
                    raise Mismatch(f"done {text} is missing")
                self.found.add(text)

    def compare(self) -> None:
        for kind, lines in (("done", self.done), ("open", self.open)):
            for text in sorted(lines - self.found):
                raise Mismatch(f"{kind} {text} is none of its histories")


def order(before: Packet, after: Packet) -> tuple:
    changed = [(place, after[place]) for place in range(2, len(FIELDS)) if before[place] != after[place]]
    return len(changed), after[1], changed
