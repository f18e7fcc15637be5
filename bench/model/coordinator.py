"""The controller's side of updates: phases, their batches, sessions and their losses."""

from __future__ import annotations

from dataclasses import dataclass, field
from typing import Optional

from .document import Network, Version
from .switch import Change, Message

# ("opening",) ("idle", i) ("install", i) ("flip", i, r), and then ("drain", i) ("clean", i); or, if drains overlap,
# ("tidy", i), and ("sweep", i, stamp) for each policy that drained.
Phase = tuple


@dataclass
class Session:
    """The session with a switch, and what is to be sent in it."""

    state: str = "fresh"  # then "greeted", then "up"
    away: bool = False
    unsent: list[Message] = field(default_factory=lambda: [Message("hello")])
    sent: int = 0
    owed: Optional[int] = None  # the number of the barrier that was sent in this session and not answered
    heard: bool = False  # whether the barrier of this phase was answered


@dataclass
class Coordinator:
    network: Network
    versions: list[Version]
    rejoins: int
    stamps: Optional[range] = None  # all stamps, if drains overlap
    phase: Phase = ("opening",)
    draining: list[int] = field(default_factory=list)  # policies, if drains overlap
    halt: Optional[str] = None
    sessions: dict[int, Session] = field(default_factory=dict)

    def __post_init__(self) -> None:
        self.sessions = {sw: Session() for sw in self.network.switches}

    # ---- phases

    def entry(self) -> tuple[int, ...]:
        """The policies of which one handles a packet that comes in now."""
        kind = self.phase[0]
        if kind == "opening":
            return (0,)
        policy = self.phase[1]
        return {"install": (policy - 1,), "flip": (policy - 1, policy)}.get(kind, (policy,))

    def works(self) -> bool:
        """Whether each switch gets a batch in this phase."""
        return self.phase[0] not in ("idle", "drain")

    def rounds(self, policy: int) -> int:
        upper = policy if policy % 2 == 1 else policy - 1
        return max(len(rows) for place, rows in self.version(upper).rows.items() if self.network.is_edge(*place))

    def version(self, policy: int) -> Version:
        return self.versions[policy - 1]

    def stamp(self, policy: int) -> int:
        return self.version(policy).stamp

    def leaving(self) -> Optional[int]:
        """The policy of which it is waited for that no packet has its stamp."""
        if self.phase[0] == "drain":
            return self.phase[1] - 1
        return self.draining[0] if self.phase[0] == "idle" and self.draining else None

    def may_begin(self) -> bool:
        """Whether there is a next policy, and, if drains overlap, a stamp for it."""
        if self.phase[0] != "idle" or self.phase[1] == len(self.versions):
            return False
        live = self.draining + [self.phase[1]] * (self.phase[1] > 0)
        return self.stamps is None or not set(self.stamps) <= {self.stamp(policy) for policy in live}

    def after(self) -> Phase:
        """The phase that comes once all switches have answered."""
        kind, *numbers = self.phase
        if kind == "opening":
            return ("idle", 0)
        policy = numbers[0]
        if kind == "install":
            return ("flip", policy, 1)
        if kind == "flip" and numbers[1] < self.rounds(policy):
            return ("flip", policy, numbers[1] + 1)
        if kind == "flip" and policy > 1 and self.stamps is None:
            return ("drain", policy)
        return ("tidy", policy) if kind == "flip" and policy > 1 and policy % 2 == 1 else ("idle", policy)

    def batch(self, sw: int) -> list[Change]:
        """The flow mods of this phase for a switch, port by port."""
        if self.phase[0] == "opening":
            return [Change("delete")]
        return [change for port in self.network.switches[sw] for change in self.changes(sw, port)]

    def changes(self, sw: int, port: int) -> list[Change]:
        kind, policy = self.phase[:2]
        odd = policy % 2 == 1
        edge = self.network.is_edge(sw, port)
        if kind == "install":
            return [Change("add", row) for row in self.version(policy).rows[sw, port]] if not (edge and odd) else []
        if kind == "clean":
            gone = self.version(policy - 1).rows[sw, port]
            return [Change("delete strict", row) for row in gone] if odd or not edge else []
        if kind == "tidy":
            return [Change("delete strict", row) for row in self.version(policy - 1).rows[sw, port] if edge]
        if kind == "sweep":
            return [Change("delete strict", row) for row in self.version(self.draining[0]).rows[sw, port] if not edge]
        turn = self.phase[2]
        rows = self.version(policy if odd else policy - 1).rows[sw, port]
        if not edge or len(rows) < turn:
            return []
        return [Change("add", rows[turn - 1])] if odd else [Change("delete strict", rows[len(rows) - turn])]

    def enter(self, phase: Phase) -> None:
        if self.phase[0] == "sweep":
            self.draining.pop(0)
        if self.stamps is not None and self.phase[0] == "flip" != phase[0] and phase[1] > 1:
            self.draining.append(phase[1] - 1)
        self.phase = phase
        for sw, session in self.sessions.items():
            session.owed, session.heard = None, False
            if session.state == "up":
                self.order(sw)

    def order(self, sw: int) -> None:
        """The batch of this phase is to be sent, where there is one and the switch did not answer for it."""
        session = self.sessions[sw]
        if self.works() and not session.heard:
            session.unsent += [Message("change", change=change) for change in self.batch(sw)]
            session.unsent.append(Message("barrier"))

    # ---- messages

    def send(self, sw: int) -> Message:
        session = self.sessions[sw]
        session.sent += 1
        message = session.unsent.pop(0)._replace(xid=session.sent)
        if message.kind == "barrier":
            session.owed = message.xid
        return message

    def hear(self, sw: int, message: Message) -> None:
        session = self.sessions[sw]
        if message.kind == "error":
            self.halt = f"switch {sw} error 3 0"
        elif message.kind == "hello" and session.state == "fresh":
            session.state = "greeted"
            session.unsent.append(Message("features"))
        elif message.kind == "features" and session.state == "greeted":
            session.state = "up"
            self.order(sw)
        elif message.kind == "reply" and session.state == "up" and message.xid == session.owed:
            session.owed, session.heard = None, True
            if all(one.heard for one in self.sessions.values()):
                self.enter(self.after())

    # ---- losses

    def lose(self, sw: int) -> bool:
        """Whether the updates go on."""
        if self.rejoins == 0:
            self.halt = f"switch {sw} lost"
            return False
        self.rejoins -= 1
        old = self.sessions[sw]
        self.sessions[sw] = Session(away=True, unsent=[], sent=old.sent, heard=old.heard)
        return True

    def rejoin(self, sw: int) -> None:
        session = self.sessions[sw]
        session.away, session.unsent = False, [Message("hello")]
