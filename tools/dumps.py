"""Flow tables as Open vSwitch prints them, in the words of nkctl, for the scripts beside this file."""

from __future__ import annotations

import re
from typing import Iterable, Optional

from plan import Fault, Row

NAMES = {
    "in_port": "in", "dl_type": "ethTyp", "nw_proto": "ipProto", "dl_src": "ethSrc", "dl_dst": "ethDst", "nw_src": "ip4Src",
    "nw_dst": "ip4Dst", "tp_src": "tcpSrcPort", "tp_dst": "tcpDstPort",
}  # fmt: skip
ORDER = ["in", "vlan", "ethTyp", "ipProto", "ethSrc", "ethDst", "ip4Src", "ip4Dst", "tcpSrcPort", "tcpDstPort"]
# What stands for a type of frame and a protocol.
KINDS = {
    "ip": (0x0800, None), "icmp": (0x0800, 1), "tcp": (0x0800, 6), "udp": (0x0800, 17), "sctp": (0x0800, 132),
    "arp": (0x0806, None), "rarp": (0x8035, None), "ipv6": (0x86DD, None), "icmp6": (0x86DD, 58), "tcp6": (0x86DD, 6),
    "udp6": (0x86DD, 17), "sctp6": (0x86DD, 132), "mpls": (0x8847, None), "mplsm": (0x8848, None),
}  # fmt: skip
INNER = ("ipProto", "ip4Src", "ip4Dst", "nw_tos")
WITH_PORTS = ("1", "6", "17", "132")
ADDITIONAL = ("table", "cookie", "duration", "n_packets", "n_bytes", "idle_age", "hard_age", "idle_timeout", "hard_timeout",
              "send_flow_rem", "check_overlap", "reset_counts", "importance")  # fmt: skip
ALL_FIELDS = len(ORDER) + 2
LOCAL_PORT = 65534


def value_of(name: str, value: str) -> str:
    """A value as `nkctl rules` prints it; a mask of all bits says nothing."""
    value = re.sub(r"/(0x)?f+$|/255\.255\.255\.255$|/32$|/ff(:ff){5}$", "", value)
    if name == "in":
        return str(LOCAL_PORT if value == "LOCAL" else int(value))
    if name == "ethTyp":
        return f"0x{int(value, 0):04x}"
    return str(int(value, 0)) if re.fullmatch(r"0x[0-9a-fA-F]+", value) else value


def match_of(words: Iterable[str]) -> dict[str, str]:
    """The fields that a row of a bridge fixes, those that nkctl has by its names."""
    fixed: dict[str, str] = {}
    for word in words:
        name, _, value = word.partition("=")
        if name in KINDS:
            kind, protocol = KINDS[name]
            fixed["ethTyp"] = f"0x{kind:04x}"
            fixed |= {} if protocol is None else {"ipProto": str(protocol)}
        elif name == "vlan_tci" and value in ("0x0000", "0x0000/0x1fff", "0x0000/0xffff"):
            fixed["vlan"] = "none"
        elif name == "dl_vlan":
            fixed["vlan"] = "none" if int(value, 0) == 0xFFFF else str(int(value, 0))
        else:
            name = NAMES.get(name, name)
            fixed[name] = value_of(name, value) if name in ORDER else value
    return fixed


def normal(priority: int, fixed: dict[str, str], actions: str) -> Row:
    """A row with the matches that its frames have, and the priority that a bridge gives it."""
    if fixed.get("ethTyp") not in ("0x0800", "0x0806"):
        fixed = {name: value for name, value in fixed.items() if name not in INNER}
    if fixed.get("ethTyp") != "0x0800" or fixed.get("ipProto") not in WITH_PORTS:
        fixed = {name: value for name, value in fixed.items() if name not in ("tcpSrcPort", "tcpDstPort")}
    names = [name for name in ORDER if name in fixed] + [name for name in fixed if name not in ORDER]
    pattern = " ".join(f"{name}={fixed[name]}" if fixed[name] else name for name in names)
    return Row(65535 if len(fixed) == ALL_FIELDS else priority, pattern, actions)


def split_actions(text: str) -> list[str]:
    """The actions of a list, cut at the commas outside of brackets."""
    return [part for part in re.split(r",(?![^()]*\))", text) if part]


def action_of(text: str) -> str:
    """An action in the words of nkctl, or as it stands if there are none."""
    word, _, value = text.partition(":")
    if text == "strip_vlan":
        return "strip"
    if text.upper() == "IN_PORT":
        return "output 65528"
    if word in ("output", "mod_vlan_vid") and value.isdigit():
        return f"{'output' if word == 'output' else 'vlan'} {value}"
    name = NAMES.get(word.removeprefix("mod_"), "")
    return f"set {name} {value}" if word.startswith("mod_") and name else text


def read_flow(line: str) -> Optional[tuple[Row, int]]:
    """A row of a dump and the number of its packets, or none if the line has none of the first table."""
    head, mark, actions = line.strip().partition("actions=")
    if not mark:
        return None
    words = [word for word in re.split(r"[,\s]+", head) if word]
    if any(word.startswith("table=") and word != "table=0" for word in words):
        return None
    told = dict(word.split("=", 1) for word in words if word.startswith(("priority=", "n_packets=")))
    match = [word for word in words if word.split("=")[0] not in (*ADDITIONAL, "priority")]
    given = [] if actions == "drop" else [action_of(action) for action in split_actions(actions)]
    row = normal(int(told.get("priority", 32768)), match_of(match), ", ".join(given) or "drop")
    return row, int(told.get("n_packets", 0))


def read_dump(lines: Iterable[str]) -> dict[Row, int]:
    """The rows of a dump with the numbers of their packets."""
    rows, is_dump = [], False
    for number, line in enumerate(lines, 1):
        is_dump = is_dump or "FLOW" in line or "actions=" in line
        try:
            rows.append(read_flow(line))
        except ValueError:
            raise Fault(f"line {number} is no row of a dump: {line.strip()}") from None
    if not is_dump:
        raise Fault("this is no dump: it has to be what `ovs-ofctl dump-flows` prints")
    return dict(row for row in rows if row is not None)


def taken(rows: Iterable[Row]) -> set[Row]:
    """Planned rows as a bridge takes them."""
    return {normal(row.priority, dict(word.split("=") for word in row.pattern.split()), row.actions) for row in rows}
