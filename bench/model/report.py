"""What `nkctl simulate` has to print of a document."""

from __future__ import annotations

from typing import Optional

from netkat import value_text

from .document import Document, Packet, packet_of
from .policy import HEADER
from .world import At, Event, World


def place_text(place: tuple[int, int]) -> str:
    return f"{place[0]}:{place[1]}"


def history_text(history: tuple[At, ...]) -> str:
    text = place_text(history[0].place)
    for before, after in zip(history, history[1:]):
        named = zip(HEADER, before.header, after.header)
        fields = ",".join(f"{name}={value_text(name, new)}" for name, old, new in named if old != new)
        text += ">" + place_text(after.place) + (f"{{{fields}}}" if fields else "")
    return text


def packet_text(packet: Packet) -> str:
    fields = " ".join(f"{name}={value_text(name, value)}" for name, value in zip(HEADER, packet.header))
    return f"{place_text(packet.place)} vlan={'none' if packet.tag is None else packet.tag} {fields}"


def event_text(event: Event) -> str:
    if event[0] == "arrive":
        return "arrive " + packet_text(event[1])
    return " ".join(map(str, event))


def report(world: World) -> str:
    lines = [f"e {event_text(event)}" for event in world.journal]
    lines.append("phase " + " ".join(map(str, world.control.phase)))
    draining = [world.control.stamp(policy) for policy in world.control.draining]
    lines += [" ".join(map(str, ["draining", *draining]))] if draining else []
    halt = world.control.halt
    if halt is not None:
        lines.append(f"halted {halt if isinstance(halt, str) else 'undrained ' + history_text(halt)}")
    for number, arrival in enumerate(world.arrivals):
        entry = " or ".join(map(str, arrival.entry))
        lines.append(f"arrival {number + 1} at {place_text(arrival.packet.place)} policy {entry}")
        lines += sorted({f"done {history_text(history)}" for history in arrival.done})
        copies = [flight.history for flight in world.flights if flight.arrival == number]
        lines += sorted({f"open {history_text(history)}" for history in copies})
    return "\n".join(lines + [""])


def event_of(words: list[str], packets: list[Packet]) -> Event:
    """The event of a line: of a schedule, or of a journal, in which a packet is told in full."""
    if words[0] == "arrive":
        return ("arrive", packets[int(words[1]) - 1] if len(words) == 2 else packet_of(words[1:]))
    return (words[0], *map(int, words[1:]))


def perform(world: World, words: list[str], packets: list[Packet]) -> bool:
    """Does what a line of a schedule says, and tells whether it could happen."""
    if words in (["settle"], ["flow"]):
        getattr(world, words[0])()
        return True
    event = event_of(words, packets)
    if not world.can(event):
        return False
    world.do(event)
    return True


def simulate(document: Document) -> tuple[int, str]:
    """The exit status and the text."""
    world = World(document)
    for line, words in document.schedule:
        if not perform(world, words, document.packets):
            return 1, f"nkctl: line {line} column 1: 40 NotEnabled\n"
    return (0 if world.control.halt is None else 3), report(world)


def replay(document: Document, printed: str) -> Optional[str]:
    """What is wrong with the journal of a run, or nothing: each event can happen, and they lead to what is printed."""
    world = World(document)
    for number, line in enumerate(printed.splitlines(), 1):
        if line.startswith("e ") and not perform(world, line.split()[1:], document.packets):
            return f"line {number} cannot happen: {line}"
    return None if report(world) == printed else "the journal leads to another report"
