"""Sessions between a controller and its switches, and which of the messages in a journal are barriers."""

from __future__ import annotations

from collections import deque
from dataclasses import dataclass, field
from typing import Deque, Dict, List, Optional, Set, Tuple

@dataclass
class Session:
    """What stands between the controller and a switch."""

    to_switch: Deque[int] = field(default_factory=deque)  # messages by their xid
    to_controller: Deque[str] = field(default_factory=lambda: deque(["hello"]))
    is_away: bool = False
    sent: int = 0  # all messages so far
    session_sent: int = 0  # those of the present session
    heard: Set[str] = field(default_factory=set)  # in the present session
    pending: int = 0
    awaited: Optional[int] = None  # a barrier by its xid
    batch_sent: int = 0  # of the present batch in the present session
    has_barrier: bool = False  # the barrier of the batch was sent in this session
    is_done: bool = False  # the answer to the batch was heard

    def lose(self) -> None:
        """The switch is away: what was on its way is lost, and its barrier is forgotten."""
        self.is_away = True
        self.awaited = None
        self.to_switch.clear()
        self.to_controller.clear()

    def begin_again(self) -> None:
        """The switch is back, and has sent its greeting."""
        self.is_away = False
        self.to_controller.append("hello")
        self.heard.clear()
        self.session_sent = self.batch_sent = 0
        self.has_barrier = False

    def enter_phase(self) -> None:
        self.batch_sent = 0
        self.is_done = self.has_barrier = False


@dataclass
class Taken:
    """What a switch has taken, by xid."""

    channel: Deque[int] = field(default_factory=deque)
    sent: int = 0
    greetings: int = 2  # messages that are still to be sent of the greeting
    greeted: Set[int] = field(default_factory=set)
    pending: List[int] = field(default_factory=list)
    doubtful: List[int] = field(default_factory=list)  # the last ones of lost sessions: flow mods or barriers


def barriers(events: List[List[str]], rejoins: int) -> Set[Tuple[int, int]]:
    """The barriers, by switch and xid.

    A switch takes nothing after a barrier until it has answered it, so the last one taken before a `reply` is one. Flow mods
    are all applied before it. What is left then was no flow mod: a barrier that was forgotten with its session. A loss that
    halts leaves the channels as they are."""
    switches: Dict[int, Taken] = {}
    found = set()
    losses = 0
    for word, *rest in events:
        if word not in ("send", "take", "apply", "reply", "lost", "rejoin"):
            continue
        losses += word == "lost"
        if word == "lost" and losses > rejoins:
            continue
        number = int(rest[0])
        switch = switches.setdefault(number, Taken())
        found |= {(number, xid) for xid in follow(switch, word)}
    return found


def follow(switch: Taken, word: str) -> List[int]:
    """One event at a switch, and the barriers that it tells."""
    if word == "send":
        switch.sent += 1
        switch.channel.append(switch.sent)
        if switch.greetings:
            switch.greetings -= 1
            switch.greeted.add(switch.sent)
    elif word == "take" and switch.channel:
        xid = switch.channel.popleft()
        switch.pending += [xid] if xid not in switch.greeted else []
    elif word == "apply" and switch.pending:
        # which one it is does not matter, but one that is in doubt goes last
        certain = [xid for xid in switch.pending if xid not in switch.doubtful]
        switch.pending.remove((certain or switch.pending)[0])
    elif word == "reply" and switch.pending:
        last = switch.pending.pop()
        told = [last] + [xid for xid in switch.pending if xid in switch.doubtful]
        switch.pending, switch.doubtful = [], []
        return told
    elif word == "lost":
        switch.doubtful += switch.pending[-1:]
        switch.channel.clear()
    elif word == "rejoin":
        switch.greetings = 2
    return []
