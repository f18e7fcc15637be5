"""A controller and its switches as the scripts beside this file replay them: the batches of the updates, the messages of
the sessions, and the flow tables. Rows are told by the lines of `nkctl rules`. Packets have no part in it."""

from __future__ import annotations

import sys
from dataclasses import dataclass, field
from pathlib import Path
from typing import Iterator, NamedTuple, Optional

sys.path.append(str(Path(__file__).resolve().parent.parent / "tools"))
from plan import Phase, Plan, Row

HELLO, FEATURES_REQUEST, FEATURES_REPLY, CLEAR = "hello", "features request", "features reply", "delete all"


class Change(NamedTuple):
    """A flow mod: an addition, or a strict deletion."""

    adds: bool
    row: Row


class Barrier(NamedTuple):
    number: int  # that of the batch


Message = object  # one of the words above, a Change or a Barrier

# ---- batches


class Batches:
    """What each phase of the updates changes, and which follows."""

    def __init__(self, plan: Plan) -> None:
        self.plan, self.versions = plan, plan.versions

    def changes(self, phase: Phase, switch: int) -> list[Message]:
        new, old = self.versions[phase.policy], self.versions[phase.policy - 1]
        if phase.name == "opening":
            return [CLEAR]
        if phase.name == "install":
            return [Change(True, row) for linked, rows in new[switch] if linked or phase.policy % 2 == 0 for row in rows]
        if phase.name == "clean":
            return [Change(False, row) for linked, rows in old[switch] if linked or phase.policy % 2 for row in rows]
        return list(self.flipped(phase, switch))

    def flipped(self, phase: Phase, switch: int) -> Iterator[Change]:
        adds = phase.policy % 2 == 1
        for linked, rows in self.plan.upper(phase.policy)[switch]:
            if not linked and len(rows) >= phase.round:
                yield Change(adds, rows[phase.round - 1] if adds else rows[len(rows) - phase.round])

    def after(self, phase: Phase) -> Phase:
        """The phase that follows once the batch of this one is acknowledged."""
        policy = phase.policy
        if phase.name == "opening":
            return Phase("idle", 0)
        if phase.name == "install":
            return Phase("flip", policy, 1)
        if phase.name == "clean":
            return Phase("idle", policy)
        if phase.round < self.plan.rounds(policy):
            return Phase("flip", policy, phase.round + 1)
        return Phase("idle", 1) if policy == 1 else Phase("drain", policy)


# ---- the world


@dataclass
class Switch:
    """A switch, its two channels, and its session."""

    unsent: list[Message] = field(default_factory=lambda: [HELLO])
    sent: list[Message] = field(default_factory=list)
    told: list[Message] = field(default_factory=lambda: [HELLO])
    pending: list[Message] = field(default_factory=list)
    awaited: Optional[Barrier] = None
    table: dict[tuple[int, str], Row] = field(default_factory=dict)
    up: bool = False
    away: bool = False
    acknowledged: bool = False


class Fleet:
    """All switches and the controller, event by event."""

    def __init__(self, plan: Plan, capacity: int, rejoins: int) -> None:
        self.plan, self.batches = plan, Batches(plan)
        self.capacity, self.rejoins = capacity, rejoins
        self.switches = {number: Switch() for number in plan.versions[0]}
        self.phase = Phase("opening")
        self.batch = 0
        self.halted: Optional[str] = None

    # -- the controller

    def order(self, number: int, switch: Switch) -> None:
        """The whole batch and its barrier go to a switch."""
        switch.unsent += [*self.batches.changes(self.phase, number), Barrier(self.batch)]

    def enter(self, phase: Phase) -> None:
        self.phase = phase
        if phase.name in ("idle", "drain"):
            return
        self.batch += 1
        for number, switch in self.switches.items():
            switch.acknowledged = False
            if switch.up:
                self.order(number, switch)

    def heard(self, number: int, switch: Switch) -> None:
        message = switch.told.pop(0)
        if message == HELLO:
            switch.unsent.append(FEATURES_REQUEST)
        elif message == FEATURES_REPLY:
            switch.up = True
            if not switch.acknowledged and self.phase.name not in ("idle", "drain"):
                self.order(number, switch)
        elif isinstance(message, Barrier):
            switch.acknowledged = True
            if all(other.acknowledged for other in self.switches.values()):
                self.enter(self.batches.after(self.phase))
        else:
            self.halted = f"switch {number} error 3 0"

    def lose(self, number: int, switch: Switch) -> None:
        if self.rejoins == 0:
            self.halted = f"switch {number} lost"
            return
        self.rejoins -= 1
        switch.away, switch.up, switch.awaited = True, False, None
        switch.unsent, switch.sent, switch.told = [], [], []

    # -- a switch

    def take(self, switch: Switch) -> None:
        message = switch.sent.pop(0)
        if message == FEATURES_REQUEST:
            switch.told.append(FEATURES_REPLY)
        elif isinstance(message, Barrier):
            switch.awaited = message
        elif message != HELLO:
            switch.pending.append(message)

    def apply(self, switch: Switch, place: int) -> None:
        change = switch.pending.pop(place)
        if change == CLEAR:
            switch.table.clear()
        elif not change.adds:
            switch.table.pop(change.row.key, None)
        elif change.row.key in switch.table or len(switch.table) < self.capacity:
            switch.table[change.row.key] = change.row
        elif not switch.away:
            switch.told.append("table full")

    # -- events

    def step(self, event: str) -> None:
        word, *numbers = event.split()
        switch = self.switches.get(int(numbers[0])) if word in SESSION_WORDS else None
        if word == "begin":
            self.enter(Phase("install", self.phase.policy + 1))
        elif word == "drained":
            self.enter(Phase("clean", self.phase.policy))
        elif word == "send":
            switch.sent.append(switch.unsent.pop(0))
        elif word == "take":
            self.take(switch)
        elif word == "apply":
            self.apply(switch, int(numbers[1]))
        elif word == "reply":
            switch.told.append(switch.awaited)
            switch.awaited = None
        elif word == "heard":
            self.heard(int(numbers[0]), switch)
        elif word == "lost":
            self.lose(int(numbers[0]), switch)
        elif word == "rejoin":
            switch.away, switch.unsent, switch.told = False, [HELLO], [HELLO]

    def enabled(self, number: int, switch: Switch) -> Iterator[str]:
        """The events of a session and its switch, in the order in which `settle` tries them."""
        steers = self.halted is None and not switch.away
        if steers and switch.told:
            yield f"heard {number}"
        if switch.awaited is not None and not switch.pending:
            yield f"reply {number}"
        for place in range(len(switch.pending)):
            yield f"apply {number} {place}"
        if switch.sent and switch.awaited is None:
            yield f"take {number}"
        if steers and switch.unsent:
            yield f"send {number}"

    def settle(self) -> None:
        while True:
            events = (event for number, switch in self.switches.items() for event in self.enabled(number, switch))
            event = next(events, None)
            if event is None:
                return
            self.step(event)


SESSION_WORDS = ("send", "take", "apply", "reply", "heard", "lost", "rejoin")
