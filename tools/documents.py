"""Documents: a network with its settings, policies and packets. `nkctl` tells all their faults; here they are taken as right."""

from __future__ import annotations

from dataclasses import dataclass, field
from typing import Dict, Iterable, List, Optional, Tuple

from meaning import Fault, Meaning, Packet, make_packet, read_policy, read_value

Place = Tuple[int, int]


@dataclass
class PacketLine:
    packet: Packet
    tag: Optional[int]


@dataclass
class Document:
    switches: Dict[int, List[int]] = field(default_factory=dict)
    links: Dict[Place, Place] = field(default_factory=dict)  # each in both directions
    hops: int = 64
    capacity: int = 200_000
    stamps: Tuple[int, int] = (1, 4094)
    rejoins: int = 0
    overlap: bool = False
    policies: List[Meaning] = field(default_factory=list)
    packets: List[PacketLine] = field(default_factory=list)
    schedule: List[str] = field(default_factory=list)

    def is_edge(self, place: Place) -> bool:
        return place[1] in self.switches.get(place[0], []) and place not in self.links

    def stamp(self, policy: int) -> int:
        """The VLAN id that packets of a policy carry between switches."""
        low, high = self.stamps
        return low + (policy - 1) % (high - low + 1)


def read_place(text: str) -> Place:
    """A port, as `1:2`."""
    switch, port = text.split(":")
    return int(switch), int(port)


def read_packet(place: str, words: List[str]) -> PacketLine:
    """A packet at a place with the named fields, and its tag if there is one."""
    named = dict(word.split("=", 1) for word in words)
    tag = named.pop("vlan", "none")
    header = {name: read_value(value) for name, value in named.items()}
    return PacketLine(make_packet(read_place(place), **header), None if tag == "none" else int(tag))


def add_line(document: Document, words: List[str]) -> None:
    """Adds what a line outside of policies and schedule says."""
    kind, *rest = words
    if kind == "switch":
        document.switches[int(rest[0])] = [int(port) for port in rest[2:]]
    elif kind == "link":
        first, second = (read_place(end) for end in rest)
        document.links[first], document.links[second] = second, first
    elif kind == "packet":
        document.packets.append(read_packet(rest[0], rest[1:]))
    elif kind == "stamps":
        document.stamps = (int(rest[0]), int(rest[1]))
    elif words == ["overlap"]:
        document.overlap = True
    elif kind in ("hops", "capacity", "rejoins"):
        setattr(document, kind, int(rest[0]))
    else:
        raise ValueError(kind)


def read_document(lines: Iterable[str]) -> Document:
    """The document that these lines are."""
    document = Document()
    block, kind = [], ""
    for number, line in enumerate(lines, 1):
        words = line.partition("#")[0].split()
        try:
            if kind and words == ["end"]:
                if kind == "policy":
                    document.policies.append(read_policy("\n".join(block)))
                else:
                    document.schedule = [" ".join(each.partition("#")[0].split()) for each in block]
                kind = ""
            elif kind:
                block.append(line)
            elif words in (["policy"], ["schedule"]):
                block, kind = [], words[0]
            elif words:
                add_line(document, words)
        except (ValueError, IndexError):
            raise Fault(f"line {number} is no line of a document: {line.strip()}") from None
    if kind or not document.switches:
        raise Fault("the document has a block with no `end`, or no switch")
    return document
