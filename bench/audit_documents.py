"""Documents whose updates stop anywhere, for the script `audits` beside this file."""

from __future__ import annotations

import random
from dataclasses import dataclass, field
from typing import Iterator

from fleet import Fleet

Place = tuple[int, int]


@dataclass
class Document:
    switches: dict[int, list[int]]
    links: list[tuple[Place, Place]]
    stamps: tuple[int, int]
    policies: list[str]
    rejoins: int
    capacity: int = 200000
    schedule: list[str] = field(default_factory=list)

    def text(self) -> str:
        lines = [f"switch {switch} ports {' '.join(map(str, ports))}" for switch, ports in self.switches.items()]
        lines += [f"link {a[0]}:{a[1]} {b[0]}:{b[1]}" for a, b in self.links]
        lines += [f"capacity {self.capacity}", "stamps {} {}".format(*self.stamps)]
        lines += [f"rejoins {self.rejoins}"] if self.rejoins else []
        for policy in self.policies:
            lines += ["policy", f"  {policy}", "end"]
        return "\n".join([*lines, "schedule", *(f"  {event}" for event in self.schedule), "end", ""])

    def limit(self, draw: random.Random, rows: int) -> None:
        """Now and then a table holds little more than the rows of one port."""
        if draw.random() < 0.3:
            self.capacity = draw.randint(rows, 4 * rows + 4)


def draw_document(draw: random.Random) -> Document:
    """A few switches of which at least one has an edge port, and two to four policies."""
    switches = {switch: list(range(1, draw.randint(2, 4) + 1)) for switch in range(1, draw.randint(1, 3) + 1)}
    places = [(switch, port) for switch, ports in switches.items() for port in ports]
    draw.shuffle(places)
    links = [(places.pop(), places.pop()) for _ in range(draw.randint(0, (len(places) - 1) // 2))]
    low = draw.randint(1, 4000)
    policies = [draw_policy(draw, switches) for _ in range(draw.randint(2, 4))]
    return Document(switches, links, (low, low + draw.choice([1, 2, 90])), policies, draw.choice([0, 0, 1, 2, 5]))


def draw_policy(draw: random.Random, switches: dict[int, list[int]]) -> str:
    rules = [draw_rule(draw, switches) for _ in range(draw.randint(1, 5))]
    return draw.choice(["drop", "pt:=1"]) if draw.random() < 0.15 else " + ".join(rules)


def draw_rule(draw: random.Random, switches: dict[int, list[int]]) -> str:
    """Some tests, sometimes an assignment, and a port."""
    switch = draw.choice(list(switches))
    tests = [f"sw={switch}"] if draw.random() < 0.7 else []
    tests += [f"pt={draw.choice(switches[switch])}"] if draw.random() < 0.5 else []
    pool = ["ethDst=1", "ethDst=2", "not ethDst=3", "ethSrc=7", "ethTyp=2054", "ip4Dst=10.0.0.1", "ip4Src=10.1.0.9",
            "ipProto=6", "tcpDstPort=80", "not tcpSrcPort=22"]  # fmt: skip
    tests += draw.sample(pool, draw.randint(0, 2))
    sets = [draw.choice(["ethDst:=9", "ethDst:=4"])] if draw.random() < 0.2 else []
    return "; ".join([*tests, *sets, f"pt:={draw.choice(switches[switch])}"])


# ---- schedules


def other_events(fleet: Fleet) -> Iterator[str]:
    """The events that are not of a session by itself."""
    if fleet.halted:
        return
    if fleet.phase.name == "idle" and fleet.phase.policy + 1 < len(fleet.plan.versions):
        yield "begin"
    if fleet.phase.name == "drain":
        yield f"drained {fleet.plan.stamps[fleet.phase.policy - 1]}"
    for number, switch in fleet.switches.items():
        if switch.away:
            yield f"rejoin {number}"


def losses(fleet: Fleet) -> list[str]:
    return [] if fleet.halted else [f"lost {number}" for number, switch in fleet.switches.items() if not switch.away]


def draw_schedule(draw: random.Random, document: Document, fleet: Fleet) -> None:
    """Events that can happen one after another, as far as a number that is drawn."""
    loses = draw.choice([0, 0, 0.01, 0.03])
    settles = draw.choice([0, 0.01, 0.02, 0.1])
    if draw.random() < 0.8:
        move_in(draw.randint(0, 2 * len(document.policies) - 1), document, fleet)
    for _ in range(draw.choice([5, 20, 40, 100, 200])):
        events = [*other_events(fleet)]
        events += [event for number, switch in fleet.switches.items() for event in fleet.enabled(number, switch)]
        lost = losses(fleet)
        if lost and draw.random() < loses:
            events = lost
        elif draw.random() < settles:
            events = ["settle"]
        if not events:
            return
        happen(draw.choice(events), document, fleet)


def happen(event: str, document: Document, fleet: Fleet) -> None:
    document.schedule.append(event)
    fleet.settle() if event == "settle" else fleet.step(event)


def move_in(turns: int, document: Document, fleet: Fleet) -> None:
    """Settles all, and then moves the updates on a few times."""
    happen("settle", document, fleet)
    for _ in range(turns):
        for event in [*other_events(fleet)][:1]:
            happen(event, document, fleet)
            happen("settle", document, fleet)


# ---- documents for times


def moved_in(lines: list[str], policies: list[str], events: list[str]) -> str:
    blocks = [line for policy in policies for line in ("policy", policy, "end")]
    return "\n".join([*lines, *blocks, "schedule", *events, "end", ""])


def crowded(sources: int, targets: int) -> str:
    """One switch with some sources by some destinations at each of four ports."""
    tests = ["(" + " + ".join(f"{name}={n}" for n in range(1, count + 1)) + ")" for name, count in (("ethSrc", sources), ("ethDst", targets))]
    return moved_in(["switch 1 ports 1 2 3 4"], ["; ".join([*tests, "pt:=2"])], ["settle", "begin", "settle"])


def line(switches: int) -> str:
    """Switches in a line, and two policies of which the second is brought in to the end."""
    lines = [f"switch {s} ports 1 2 3" for s in range(1, switches + 1)]
    lines += [f"link {s}:2 {s + 1}:1" for s in range(1, switches)]
    ways = {-1: 1, 0: 3, 1: 2}
    policies = []
    for left_out in (4, 11):
        hosts = [host for host in range(1, switches + 1) if host != left_out]
        terms = [f"sw={s};ethDst={h};pt:={ways[(h > s) - (h < s)]}" for s in range(1, switches + 1) for h in hosts]
        policies.append("+\n".join(terms))
    return moved_in(lines, policies, ["settle", "begin", "settle", "begin", "settle", "drained 1", "settle"])


def speed_documents() -> Iterator[tuple[str, str]]:
    for sources, targets in ((60, 67), (125, 125)):
        rows = 4 * (sources * (targets + 1) + 1)
        yield f"one switch with {rows:,} rows", crowded(sources, targets)
    for switches in (64, 128):
        yield f"line of {switches} switches", line(switches)
