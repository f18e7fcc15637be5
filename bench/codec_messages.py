"""Flow mods, requests for flow statistics and replies, drawn at random and written as the OpenFlow 1.0.0 standard says.

A message is a dict of its fields. Its pattern holds the fields that are fixed, an address as [address, length]. An
action is a list of its name and its value, if it has one. Sections of the standard are named where they are followed."""

from __future__ import annotations

import random
from typing import Any, Optional

Fields = dict[str, Any]
# 5.2.3: the fields of a match in their order with their sizes in bytes, and their bits of the wildcards.
SIZES = {
    "in_port": 2, "dl_src": 6, "dl_dst": 6, "dl_vlan": 2, "dl_vlan_pcp": 1, "pad1": 1, "dl_type": 2, "nw_tos": 1,
    "nw_proto": 1, "pad2": 2, "nw_src": 4, "nw_dst": 4, "tp_src": 2, "tp_dst": 2,
}  # fmt: skip
BITS = {
    "in_port": 0, "dl_vlan": 1, "dl_src": 2, "dl_dst": 3, "dl_type": 4, "nw_proto": 5, "tp_src": 6, "tp_dst": 7,
    "dl_vlan_pcp": 20, "nw_tos": 21,
}  # fmt: skip
SHIFTS = {"nw_src": 8, "nw_dst": 14}
# 5.2.4: the type of an action, the bytes of its value and those of the pad behind it.
ACTIONS = {
    "output": (0, 2, 2), "set_vlan_vid": (1, 2, 2), "strip_vlan": (3, 0, 4), "set_dl_src": (4, 6, 6),
    "set_dl_dst": (5, 6, 6), "set_nw_src": (6, 4, 0), "set_nw_dst": (7, 4, 0), "set_tp_src": (9, 2, 2),
    "set_tp_dst": (10, 2, 2),
}  # fmt: skip
# 5.2.1: IN_PORT, TABLE, NORMAL, FLOOD, ALL, CONTROLLER and LOCAL; NONE is no port.
RESERVED = [0xFFF8, 0xFFF9, 0xFFFA, 0xFFFB, 0xFFFC, 0xFFFD, 0xFFFE]
NO_PORT = 0xFFFF
COMMANDS = ["Add", "Modify", "ModifyStrict", "Delete", "DeleteStrict"]
# 5.3.5: the numbers of an entry in their order around the match, with their sizes.
ENTRY = [("seconds", 4), ("nanoseconds", 4), ("priority", 2), ("idle", 2), ("hard", 2)]
COUNTERS = [("cookie", 8), ("packets", 8), ("bytes", 8)]


# ---- drawing


def number(draw: random.Random, size: int) -> int:
    """A number of so many bytes: any, a small one, or one of the ends."""
    top = 256**size - 1
    return draw.choice([draw.randint(0, top), draw.randint(0, min(top, 9)), 0, top])


def port(draw: random.Random) -> int:
    return draw.choice([draw.randint(1, 0xFEFF), draw.randint(1, 9), draw.choice(RESERVED)])


def draw_pattern(draw: random.Random) -> Fields:
    """Any set of fixed fields; half of the patterns have the types that their other fields are for."""
    share = draw.choice([0.0, 0.3, 0.7, 1.0])
    pattern: Fields = {name: number(draw, SIZES[name]) for name in BITS if draw.random() < share}
    for name in SHIFTS:
        length = draw.choice([0, 32, draw.randint(0, 32)]) if draw.random() < share else 0
        if length:
            pattern[name] = [number(draw, 4) >> (32 - length) << (32 - length), length]
    if "dl_vlan" in pattern:
        pattern["dl_vlan"] = draw.choice([0xFFFF, draw.randint(0, 4095)])
    if draw.random() < 0.5:
        pattern["dl_type"] = draw.choice([0x0800, 0x0800, 0x0806])
        pattern["nw_proto"] = draw.choice([1, 2, 6, 17, number(draw, 1)])
    return pattern


def draw_action(draw: random.Random) -> list[Any]:
    name = draw.choice(list(ACTIONS))
    size = ACTIONS[name][1]
    if name == "output":
        return [name, port(draw)]
    if name == "set_vlan_vid":
        return [name, draw.randint(0, 4095)]
    return [name, number(draw, size)] if size else [name]


def draw_actions(draw: random.Random) -> list[list[Any]]:
    return [draw_action(draw) for _ in range(draw.choice([0, 1, 1, 2, draw.randint(0, 9)]))]


def draw_entry(draw: random.Random) -> Fields:
    entry: Fields = {name: number(draw, size) for name, size in [("table", 1), *ENTRY, *COUNTERS]}
    entry["nanoseconds"] %= 10**9
    return {**entry, "pattern": draw_pattern(draw), "actions": draw_actions(draw)}


def draw_message(draw: random.Random, kind: str) -> Fields:
    head: Fields = {"kind": kind, "xid": number(draw, 4)}
    if kind == "reply":
        entries = [draw_entry(draw) for _ in range(draw.choice([0, 1, 2, draw.randint(0, 20)]))]
        return {**head, "more": draw.random() < 0.5, "entries": entries}
    head.update(pattern=draw_pattern(draw), out_port=draw.choice([NO_PORT, port(draw)]))
    if kind == "request":
        return {**head, "table": number(draw, 1)}
    return {**head, "command": draw.choice(COMMANDS), "priority": number(draw, 2), "actions": draw_actions(draw)}


# ---- writing


class Writer:
    """Writes messages. What is free is zero, or drawn if there is something to draw from."""

    def __init__(self, draw: Optional[random.Random]) -> None:
        self.draw = draw

    def free(self, size: int, value: int = 0) -> bytes:
        """Bytes whose value has no meaning."""
        return (number(self.draw, size) if self.draw and size else value).to_bytes(size, "big")

    def match(self, pattern: Fields) -> bytes:
        """5.2.3. Bits 22 and higher of the wildcards, wild fields, pads and the low bits of addresses are free."""
        wilds = int.from_bytes(self.free(4), "big") >> 22 << 22
        wilds += sum(1 << bit for name, bit in BITS.items() if name not in pattern)
        parts = b""
        for name, size in SIZES.items():
            if name in SHIFTS:
                address, length = pattern.get(name, [0, 0])
                loose = int.from_bytes(self.free(4), "big") & ((1 << (32 - length)) - 1)
                none = self.draw.randint(32, 63) if self.draw else 63
                wilds += (32 - length if length else none) << SHIFTS[name]
                parts += (address | loose).to_bytes(4, "big")
            else:
                parts += pattern[name].to_bytes(size, "big") if name in pattern else self.free(size)
        return wilds.to_bytes(4, "big") + parts

    def actions(self, actions: list[list[Any]]) -> bytes:
        """5.2.4. The pads and the length of an output are free."""
        parts = []
        for name, *values in actions:
            kind, size, pad = ACTIONS[name]
            value = b"".join(v.to_bytes(size, "big") for v in values)
            parts.append(kind.to_bytes(2, "big") + (4 + size + pad).to_bytes(2, "big") + value + self.free(pad))
        return b"".join(parts)

    def entry(self, entry: Fields) -> bytes:
        """5.3.5. Both pads are free."""
        head = entry["table"].to_bytes(1, "big") + self.free(1) + self.match(entry["pattern"])
        middle = b"".join(entry[name].to_bytes(size, "big") for name, size in ENTRY) + self.free(6)
        rest = b"".join(entry[name].to_bytes(size, "big") for name, size in COUNTERS) + self.actions(entry["actions"])
        return (2 + len(head + middle + rest)).to_bytes(2, "big") + head + middle + rest

    def body(self, message: Fields) -> bytes:
        """5.3.3 and 5.3.5. Free are of a flow mod cookie, timeouts, buffer and two flags; of a reply all flags but bit 0."""
        if message["kind"] == "reply":
            flags = int.from_bytes(self.free(2), "big") & 0xFFFE | message["more"]
            return b"\0\1" + flags.to_bytes(2, "big") + b"".join(map(self.entry, message["entries"]))
        match, out = self.match(message["pattern"]), message["out_port"].to_bytes(2, "big")
        if message["kind"] == "request":
            return b"\0\1" + self.free(2) + match + message["table"].to_bytes(1, "big") + self.free(1) + out
        command = COMMANDS.index(message["command"]).to_bytes(2, "big")
        middle = self.free(8) + command + self.free(4) + message["priority"].to_bytes(2, "big")
        flags = bytes([0, self.free(1)[0] & 3])
        return match + middle + self.free(4, 0xFFFFFFFF) + out + flags + self.actions(message["actions"])

    def message(self, message: Fields) -> bytes:
        """5.1: version, type, length and transaction number, and then the body."""
        body = self.body(message)
        kind = {"flow_mod": 14, "request": 16, "reply": 17}[message["kind"]]
        return bytes([1, kind]) + (8 + len(body)).to_bytes(2, "big") + message["xid"].to_bytes(4, "big") + body
