"""The switches, links and packets of a document, for the scripts beside this file."""

from __future__ import annotations

from dataclasses import dataclass, field
from typing import Iterable

# A port of a switch.
Place = tuple[int, int]


class Fault(Exception):
    """What is wrong with a text."""


@dataclass
class Packet:
    place: Place
    fields: dict[str, str]


@dataclass
class Network:
    switches: dict[int, list[int]] = field(default_factory=dict)
    links: list[tuple[Place, Place]] = field(default_factory=list)
    packets: list[Packet] = field(default_factory=list)

    def edge_ports(self) -> list[Place]:
        """The ports without a link, in the order of the document."""
        linked = {end for link in self.links for end in link}
        places = [(switch, port) for switch, ports in self.switches.items() for port in ports]
        return [place for place in places if place not in linked]


def read_place(text: str) -> Place:
    """A port, as `1:2`."""
    switch, port = text.split(":")
    return int(switch), int(port)


def show_place(place: Place) -> str:
    return f"{place[0]}:{place[1]}"


def add_line(network: Network, words: list[str]) -> None:
    """Adds what a line outside of policies and schedules says."""
    kind, *rest = words
    if kind == "switch":
        switch, ports, *numbers = rest
        if ports != "ports" or not numbers:
            raise ValueError
        network.switches[int(switch)] = [int(number) for number in numbers]
    elif kind == "link":
        first, second = rest
        network.links.append((read_place(first), read_place(second)))
    elif kind == "packet":
        place, *fields = rest
        named = dict(text.split("=") for text in fields)
        network.packets.append(Packet(read_place(place), named))
    elif kind not in ("hops", "capacity", "stamps", "rejoins", "overlap"):
        raise ValueError


def read_network(lines: Iterable[str]) -> Network:
    """The network of a document. It sees that the lines have their form; `nkctl` tells all faults."""
    network = Network()
    in_block = False
    for number, line in enumerate(lines, 1):
        words = line.partition("#")[0].split()
        if in_block:
            in_block = words != ["end"]
        elif words in (["policy"], ["schedule"]):
            in_block = True
        elif words:
            try:
                add_line(network, words)
            except ValueError:
                raise Fault(f"line {number} is no line of a document: {line.strip()}") from None
    if in_block:
        raise Fault("the last block has no line `end`")
    if not network.switches:
        raise Fault("the document has no switch")
    check_links(network)
    return network


def check_links(network: Network) -> None:
    """Each end of a link is a port that its switch has."""
    for link in network.links:
        for switch, port in link:
            if port not in network.switches.get(switch, []):
                raise Fault(f"a link has the port {switch}:{port}, which is not declared")
