"""A simulated switch: its table, its pending flow mods, and the barrier that it took."""

from __future__ import annotations

from dataclasses import dataclass, field
from typing import NamedTuple, Optional

from .policy import HEADER, Row


class Change(NamedTuple):
    """A flow mod: `add`, `delete strict`, or `delete` of all rows."""

    command: str
    row: Optional[Row] = None


class Message(NamedTuple):
    kind: str  # "hello" "features" "change" "barrier" and, from a switch, "reply" "error"
    xid: int = 0
    change: Optional[Change] = None


@dataclass
class Switch:
    capacity: int
    table: dict[tuple, Row] = field(default_factory=dict)  # by priority, port, tag and fixed fields
    pending: list[Change] = field(default_factory=list)
    awaits: Optional[int] = None

    def take(self, message: Message) -> list[Message]:
        """What it answers at once."""
        if message.kind == "features":
            return [message]
        if message.kind == "change":
            self.pending.append(message.change)
        if message.kind == "barrier":
            self.awaits = message.xid
        return []

    def apply(self, place: int) -> bool:
        """Whether there was room for it."""
        change = self.pending.pop(place)
        if change.command == "delete":
            self.table.clear()
        elif change.command == "delete strict":
            self.table.pop(change.row.key(), None)
        elif change.row.key() in self.table or len(self.table) < self.capacity:
            self.table[change.row.key()] = change.row
        else:
            return False
        return True

    def reply(self) -> Message:
        xid, self.awaits = self.awaits, None
        return Message("reply", xid)

    def look_up(self, port: int, header: tuple[int, ...], tag: Optional[int]) -> Optional[Row]:
        values = dict(zip(HEADER, header))
        hits = [
            row
            for row in self.table.values()
            if row.port == port and row.tag == tag and all(values[name] == value for name, value in row.fixed)
        ]
        best = [row for row in hits if row.priority == max(hit.priority for hit in hits)]
        assert len(best) < 2, "two rows of one priority hit"
        return best[0] if best else None
