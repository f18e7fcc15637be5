"""The whole: the controller, switches, channels and packets. What each event does, and where it can happen."""

from __future__ import annotations

from dataclasses import dataclass, field
from typing import Iterator, NamedTuple

from .coordinator import Coordinator
from .document import Document, Packet, Place
from .policy import HEADER, IN_PORT
from .switch import Message, Switch


class At(NamedTuple):
    """A packet of a history."""

    place: Place
    header: tuple[int, ...]


class Flight(NamedTuple):
    arrival: int
    history: tuple[At, ...]  # oldest first
    tag: int
    hops: int


@dataclass
class Arrival:
    packet: Packet
    entry: tuple[int, ...]
    done: list[tuple[At, ...]] = field(default_factory=list)


# An event: its first word, and numbers; or "arrive" and a packet.
Event = tuple


class World:
    def __init__(self, document: Document) -> None:
        self.network = document.network
        self.limit = document.hops
        self.control = Coordinator(document.network, document.versions(), document.rejoins, document.round())
        switches = document.network.switches
        self.switches = {sw: Switch(document.capacity) for sw in switches}
        self.down: dict[int, list[Message]] = {sw: [] for sw in switches}
        self.up: dict[int, list[Message]] = {sw: [Message("hello")] for sw in switches}
        self.flights: list[Flight] = []
        self.arrivals: list[Arrival] = []
        self.journal: list[Event] = []

    # ---- where an event can happen

    def can(self, event: Event) -> bool:
        if event[0] == "arrive":
            return True
        return self.can_go_on(event) if event[0] in ("take", "apply", "reply", "hop") else self.can_move(event)

    def can_go_on(self, event: Event) -> bool:
        """Of switches and packets, which go on after a halt."""
        kind, number, *rest = event
        if kind == "hop":
            return number < len(self.flights) and self.flights[number].hops < self.limit
        switch = self.switches[number]
        if kind == "take":
            return bool(self.down[number]) and switch.awaits is None
        if kind == "apply":
            return rest[0] < len(switch.pending)
        return switch.awaits is not None and not switch.pending

    def can_move(self, event: Event) -> bool:
        """Of the controller, which does nothing after a halt."""
        control = self.control
        kind, *rest = event
        if control.halt is not None:
            return False
        if kind == "begin":
            return control.may_begin()
        if kind == "drained":
            return self.is_draining(rest[0]) and all(flight.tag != rest[0] for flight in self.flights)
        if kind == "stuck":
            there = rest[0] < len(self.flights)
            return there and self.is_draining(self.flights[rest[0]].tag) and self.flights[rest[0]].hops >= self.limit
        session = control.sessions[rest[0]]
        if kind == "rejoin":
            return session.away
        return not session.away and (kind == "lost" or bool(self.up[rest[0]] if kind == "heard" else session.unsent))

    def is_draining(self, stamp: int) -> bool:
        policy = self.control.leaving()
        return policy is not None and self.control.stamp(policy) == stamp

    # ---- what it does

    def do(self, event: Event) -> None:
        assert self.can(event)
        self.journal.append(event)
        getattr(self, "_" + event[0])(*event[1:])

    def _begin(self) -> None:
        self.control.enter(("install", self.control.phase[1] + 1))

    def _drained(self, stamp: int) -> None:
        kind, policy = self.control.phase
        self.control.enter(("clean", policy) if kind == "drain" else ("sweep", policy, stamp))

    def _stuck(self, number: int) -> None:
        self.control.halt = self.flights[number].history

    def _send(self, sw: int) -> None:
        self.down[sw].append(self.control.send(sw))

    def _heard(self, sw: int) -> None:
        self.control.hear(sw, self.up[sw].pop(0))

    def _take(self, sw: int) -> None:
        self.up[sw] += self.switches[sw].take(self.down[sw].pop(0))

    def _apply(self, sw: int, number: int) -> None:
        if not self.switches[sw].apply(number) and not self.control.sessions[sw].away:
            self.up[sw].append(Message("error"))

    def _reply(self, sw: int) -> None:
        self.up[sw].append(self.switches[sw].reply())

    def _lost(self, sw: int) -> None:
        if self.control.lose(sw):
            self.down[sw], self.up[sw] = [], []
            self.switches[sw].awaits = None

    def _rejoin(self, sw: int) -> None:
        self.control.rejoin(sw)
        self.up[sw].append(Message("hello"))

    def _arrive(self, packet: Packet) -> None:
        self.arrivals.append(Arrival(packet, self.control.entry()))
        self.handle(len(self.arrivals) - 1, (At(packet.place, packet.header),), packet.tag, 0)

    def _hop(self, number: int) -> None:
        flight = self.flights.pop(number)
        self.handle(flight.arrival, flight.history, flight.tag, flight.hops)

    def handle(self, arrival: int, history: tuple[At, ...], tag, hops: int) -> None:
        """The switch that a packet came to acts on it."""
        (sw, port), header = history[-1]
        row = self.switches[sw].look_up(port, header, tag)
        for kind, *rest in row.actions if row else ():
            if kind == "set":
                place = HEADER.index(rest[0])
                header = header[:place] + (rest[1],) + header[place + 1 :]
            elif kind == "vlan":
                tag = rest[0]
            elif kind == "strip":
                tag = None
            else:
                out = (sw, port if rest[0] == IN_PORT else rest[0])
                left = history + (At(out, header),)
                if self.network.is_edge(*out):
                    self.arrivals[arrival].done.append(left)
                else:
                    there = left + (At(self.network.links[out], header),)
                    self.flights.append(Flight(arrival, there, tag, hops + 1))

    # ---- as long as something can happen

    def at_switches(self) -> Iterator[Event]:
        for sw in self.network.switches:
            yield from (("heard", sw), ("reply", sw), ("apply", sw, 0), ("take", sw), ("send", sw))

    def follow(self, tried) -> None:
        while (event := next(filter(self.can, tried()), None)) is not None:
            self.do(event)

    def settle(self) -> None:
        self.follow(self.at_switches)

    def flow(self) -> None:
        self.follow(lambda: (("hop", number) for number in range(len(self.flights))))
