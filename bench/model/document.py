"""Documents and schedules, read from a text that is one."""

from __future__ import annotations

from dataclasses import dataclass, field
from typing import NamedTuple, Optional

from .policy import HEADER, Policy, Row, number, read_policy, rows_of

Place = tuple[int, int]


@dataclass
class Network:
    switches: dict[int, list[int]] = field(default_factory=dict)
    links: dict[Place, Place] = field(default_factory=dict)  # each in both directions

    def is_edge(self, sw: int, port: int) -> bool:
        return port in self.switches[sw] and (sw, port) not in self.links


class Packet(NamedTuple):
    """A packet of a host: where it comes in, its header and its tag."""

    place: Place
    header: tuple[int, ...]
    tag: Optional[int]


class Version(NamedTuple):
    """A policy as rows: its stamp, and the rows of each port."""

    stamp: int
    rows: dict[Place, list[Row]]


@dataclass
class Document:
    network: Network = field(default_factory=Network)
    hops: int = 64
    capacity: int = 200_000
    stamps: tuple[int, int] = (1, 4094)
    rejoins: int = 0
    overlap: bool = False
    policies: list[Policy] = field(default_factory=list)
    packets: list[Packet] = field(default_factory=list)
    schedule: list[tuple[int, list[str]]] = field(default_factory=list)  # numbers of lines, and their words

    def round(self) -> Optional[range]:
        """All stamps, if drains overlap."""
        return range(self.stamps[0], self.stamps[1] + 1) if self.overlap else None

    def versions(self) -> list[Version]:
        low, high = self.stamps
        made = []
        for place, policy in enumerate(self.policies):
            stamp = low + place % (high - low + 1)
            rows = {
                (sw, port): rows_of(policy, sw, port, self.network, stamp, high=place % 2 == 0)
                for sw, ports in self.network.switches.items()
                for port in ports
            }
            made.append(Version(stamp, rows))
        return made


def place_of(word: str) -> Place:
    sw, port = word.split(":")
    return int(sw), int(port)


def address(text: str) -> int:
    """A number of a header field; an IPv4 address too."""
    parts = text.split(".")
    return number(text) if len(parts) == 1 else int.from_bytes(bytes(map(int, parts)), "big")


def packet_of(words: list[str]) -> Packet:
    values = dict(word.split("=", 1) for word in words[1:])
    vlan = values.pop("vlan", "none")
    tag = None if vlan == "none" else int(vlan)
    given = {name: address(value) for name, value in values.items()}
    header = tuple(given.get(name, 2048 if name == "ethTyp" else 0) for name in HEADER)
    return Packet(place_of(words[0]), header, tag)


def read_document(text: str) -> Document:
    document = Document()
    network = document.network
    lines = enumerate((line.split("#")[0].split() for line in text.splitlines()), 1)
    for line, words in lines:
        match words:
            case ["switch", sw, "ports", *ports]:
                network.switches[int(sw)] = [int(port) for port in ports]
            case ["link", one, other]:
                network.links[place_of(one)] = place_of(other)
                network.links[place_of(other)] = place_of(one)
            case ["hops", count]:
                document.hops = int(count)
            case ["capacity", count]:
                document.capacity = int(count)
            case ["stamps", low, high]:
                document.stamps = (int(low), int(high))
            case ["rejoins", count]:
                document.rejoins = int(count)
            case ["overlap"]:
                document.overlap = True
            case ["policy"]:
                document.policies.append(read_policy("\n".join(block(lines))))
            case ["packet", *rest]:
                document.packets.append(packet_of(rest))
            case ["schedule"]:
                for line, event in lines:
                    if event == ["end"]:
                        break
                    if event:
                        document.schedule.append((line, event))
    return document


def block(lines) -> list[str]:
    """The lines up to an `end`."""
    taken = []
    for _, words in lines:
        if words == ["end"]:
            break
        taken.append(" ".join(words))
    return taken
