"""Messages that are broken on purpose, each made from a sound one by one change."""

from __future__ import annotations

import random
from typing import Iterator, NamedTuple

from codec_messages import Writer, draw_entry, draw_message

HEAD = 12  # header, kind and flags of a reply
ENTRY = 88  # what stands before the actions of an entry


class Fault(NamedTuple):
    name: str
    place: str  # head, request, entry or flow_mod
    text: bytes


def sized(text: bytes) -> bytes:
    """The message with the length that it has."""
    return text[:2] + len(text).to_bytes(2, "big") + text[4:]


def put(text: bytes, place: int, value: int, size: int = 2) -> bytes:
    """The message with a number at a place."""
    return text[:place] + value.to_bytes(size, "big") + text[place + size :]


def faults(draw: random.Random) -> Iterator[Fault]:
    plain = Writer(None)
    entries = [{**draw_entry(draw), "actions": [["output", 2], ["strip_vlan"]]} for _ in range(2)]
    reply = plain.message({"kind": "reply", "xid": 5, "more": False, "entries": entries})
    request = plain.message({**draw_message(draw, "request"), "xid": 5})
    change = {**draw_message(draw, "flow_mod"), "xid": 5, "command": "Add", "actions": [["output", 2]]}
    yield from broken_heads(reply)
    yield from broken_requests(request)
    yield from broken_entries(reply)
    yield from broken_actions(reply)
    yield from broken_changes(plain.message(change))


def broken_heads(reply: bytes) -> Iterator[Fault]:
    yield Fault("reply of version 9", "head", put(reply, 0, 9, 1))
    yield Fault("header's length is 1 more than the bytes", "head", put(reply, 2, len(reply) + 1))
    yield Fault("header's length is 1 less than the bytes", "head", put(reply, 2, len(reply) - 1))
    yield Fault("header's length is 7", "head", put(reply, 2, 7))
    yield Fault("reply without flags", "head", sized(reply[:10]))


def broken_requests(request: bytes) -> Iterator[Fault]:
    yield Fault("request of 55 bytes", "request", sized(request[:55]))
    yield Fault("request of 57 bytes", "request", sized(request + b"\0"))
    yield Fault("request without a match", "request", sized(request[:12]))


def broken_entries(reply: bytes) -> Iterator[Fault]:
    second = HEAD + ENTRY + 16
    yield Fault("entry's length is 0", "entry", put(reply, second, 0))
    yield Fault("entry's length is 87", "entry", put(reply, second, 87))
    yield Fault("entry's length is 8 past the end", "entry", put(reply, second, ENTRY + 24))
    yield Fault("entry's length is 2,000", "entry", put(reply, second, 2000))
    yield Fault("last entry cut by 1 byte", "entry", sized(reply[:-1]))
    yield Fault("last entry cut to 40 bytes", "entry", sized(reply[: second + 40]))
    yield Fault("1 byte behind the entries", "entry", sized(reply + b"\0"))


def broken_actions(reply: bytes) -> Iterator[Fault]:
    """The actions are those of the first entry, an output and a strip_vlan, or of the last one."""
    first = HEAD + ENTRY
    yield Fault("action's length is 0", "entry", put(reply, first + 2, 0))
    yield Fault("action's length is 16 where it has to be 8", "entry", put(reply, first + 2, 16))
    yield Fault("last action's length is past its entry", "entry", put(reply, len(reply) - 6, 16))
    yield Fault("last action's length is 7", "entry", put(reply, len(reply) - 6, 7))
    yield Fault("action of the type 12, which there is not", "entry", put(reply, first, 12))
    yield Fault("action set_vlan_pcp, which is sound but not known here", "entry", put(reply, first, 2))


def broken_changes(change: bytes) -> Iterator[Fault]:
    yield Fault("flow mod of 71 bytes", "flow_mod", sized(change[:71]))
    yield Fault("flow mod with the command 5", "flow_mod", put(change, 56, 5))
    yield Fault("flow mod's action cut by 4 bytes", "flow_mod", sized(change[:-4]))
    yield Fault("flow mod's action of length 0", "flow_mod", put(change, 74, 0))
