"""How the texts of `ovs-ofctl ofp-print` and of `wire_cases` are read, and which fields each codec can show at all."""

from __future__ import annotations

import re
import subprocess
from typing import Any

from codec_messages import BITS, COMMANDS, RESERVED, SHIFTS, Fields
from codec_readers import Answer, as_number

# ---- Open vSwitch

PORTS = dict(zip(["IN_PORT", "TABLE", "NORMAL", "FLOOD", "ALL", "CONTROLLER", "LOCAL", "ANY"], [*RESERVED, 0xFFFF]))
SHORT = {
    "ip": {"dl_type": 0x0800}, "arp": {"dl_type": 0x0806}, "icmp": {"dl_type": 0x0800, "nw_proto": 1},
    "igmp": {"dl_type": 0x0800, "nw_proto": 2}, "tcp": {"dl_type": 0x0800, "nw_proto": 6},
    "udp": {"dl_type": 0x0800, "nw_proto": 17}, "sctp": {"dl_type": 0x0800, "nw_proto": 132},
}  # fmt: skip
OTHER = {"arp_spa": "nw_src", "arp_tpa": "nw_dst", "arp_op": "nw_proto", "icmp_type": "tp_src", "icmp_code": "tp_dst"}
HEADS = {"OFPST_FLOW request": "request", "OFPST_FLOW reply": "reply", "OFPT_FLOW_MOD": "flow_mod"}
MODS = dict(zip(["ADD", "MOD", "MOD_STRICT", "DEL", "DEL_STRICT"], COMMANDS))
UNKNOWN = 2**64 - 1  # printed as a question mark


def port_number(text: str) -> int:
    return PORTS[text] if text in PORTS else int(text)


def ovs_pattern(text: str) -> Fields:
    pattern: Fields = {}
    for part in filter(None, re.split(r"[,\s]+", text)):
        name, _, value = part.partition("=")
        name = OTHER.get(name, name)
        if name in SHORT:
            pattern.update(SHORT[name])
        elif name in SHIFTS:
            address, _, length = value.partition("/")
            pattern[name] = [as_number(address), int(length or "32")]
        elif part == "vlan_tci=0x0000":
            pattern["dl_vlan"] = 0xFFFF
        else:
            pattern[name] = port_number(value) if name == "in_port" else as_number(value)
    return pattern


def ovs_action(text: str) -> list[Any]:
    name, _, value = text.partition(":")
    if name in PORTS or name == "output":
        return ["output", PORTS[name] if name in PORTS else port_number(value)]
    name = name.replace("mod_", "set_")
    return [name, as_number(value)] if value else [name]


def ovs_actions(text: str) -> list[list[Any]]:
    return [] if text in ("", "drop") else [ovs_action(part) for part in text.split(",")]


def ovs_entry(line: str) -> Fields:
    head, _, actions = line.strip().partition("actions=")
    told = dict(part.partition("=")[::2] for part in re.split(r",\s*", head.strip().rstrip(",")))
    seconds, _, nanoseconds = told.pop("duration").rstrip("s").partition(".")
    entry: Fields = {"seconds": int(seconds), "nanoseconds": int(nanoseconds.ljust(9, "0"))}
    entry["actions"] = ovs_actions(actions)
    for ours, theirs, usual in [
        ("table", "table", "0"), ("idle", "idle_timeout", "0"), ("hard", "hard_timeout", "0"), ("cookie", "cookie", "0"),
        ("packets", "n_packets", "0"), ("bytes", "n_bytes", "0"), ("priority", "priority", "32768"),
    ]:  # fmt: skip
        value = told.pop(theirs, usual)
        entry[ours] = UNKNOWN if value == "?" else int(value, 0)
    entry["pattern"] = ovs_pattern(",".join(f"{k}={v}" if v else k for k, v in told.items()))
    return entry


def ovs_message(text: str) -> Answer:
    """What `ofp-print` says, or nothing if it is an error of any kind."""
    first, *lines = re.sub(r"(flags=)?\[\*{3}unknown flags \w+\*{3}\]", "", text).splitlines() or [""]
    found = re.match(r"(OFP\w+(?: \w+)?) (?:\(OF\S+\) )?\(xid=(\w+)\):(.*)", first)
    if "***" in first + "".join(lines) or not found or found[1] not in HEADS:
        return None
    kind, rest = HEADS[found[1]], found[3]
    told: Fields = {"kind": kind, "xid": int(found[2], 16)}
    if kind == "reply":
        return {**told, "more": "[more]" in rest, "entries": [ovs_entry(line) for line in lines if "cookie=" in line]}
    rest, _, actions = rest.partition("actions=")
    port = re.search(r"out_port[=:](\S+)", rest)
    told["out_port"] = port_number(port[1]) if port else 0xFFFF
    table = re.search(r"table=(\d+)", rest)
    priority = re.search(r"priority=(\d+)", rest)
    command = re.match(r" ([A-Z_]+)\s", rest + " ") if kind == "flow_mod" else None
    rest = re.sub(r"(out_port|table|priority)[=:]\w+,?|\b(cookie|idle|hard|buf):\S+", "", rest)
    rest = re.sub(r"send_flow_rem|check_overlap", "", rest)
    if command:
        rest = rest.replace(command[0].strip(), "", 1)
        told.update(command=MODS[command[1]], actions=ovs_actions(actions))
        told["priority"] = int(priority[1]) if priority else 32768
    else:
        told["table"] = int(table[1]) if table else 255
    return {**told, "pattern": ovs_pattern(rest)}


def ask_ovs(messages: list[tuple[bytes, Answer]]) -> list[Answer]:
    answers = []
    for text, _ in messages:
        run = subprocess.run(["ovs-ofctl", "ofp-print", text.hex()], capture_output=True, text=True, check=False)
        answers.append(ovs_message(run.stdout) if run.returncode == 0 else None)
    return answers


# ---- the program of this repository


def our_pattern(text: str) -> Fields:
    pattern: Fields = {n: int(v) for n, v in re.findall(r"(\w+): Some\((\d+)\)", text)}
    prefixes = re.findall(r"(\w+): Some\(Prefix \{ address: (\d+), length: (\d+) \}\)", text)
    return {**pattern, **{name: [int(address), int(length)] for name, address, length in prefixes}}


def our_actions(text: str) -> list[list[Any]]:
    names = [(re.sub(r"(?<!^)([A-Z])", r"_\1", n).lower(), v) for n, v in re.findall(r"([A-Z]\w+)(?:\((\d+)\))?", text)]
    return [[name, int(value)] if value else [name] for name, value in names]


def our_numbers(text: str) -> Fields:
    outside = re.sub(r"Pattern \{.*?\} (?=priority|table)|\[.*?\]", "", text)
    return {name: int(value) for name, value in re.findall(r"([a-z_]+) (\d+)", outside)}


def our_row(text: str) -> Fields:
    actions = {"actions": our_actions(text[text.index("[") :])} if "[" in text else {}
    return {**our_numbers(text), "pattern": our_pattern(text), **actions}


def our_message(text: str) -> Answer:
    found = re.fullmatch(r"(FLOW_MOD|FLOW_STATS_REQUEST|FLOW_STATS_REPLY) (\d+): (.*)", text)
    if not found:
        return None
    kind = {"FLOW_MOD": "flow_mod", "FLOW_STATS_REQUEST": "request"}.get(found[1], "reply")
    told: Fields = {"kind": kind, "xid": int(found[2])}
    if kind == "reply":
        more, *entries = found[3].split(", table ")
        return {**told, "more": more == "more true", "entries": [our_row(f"table {entry}") for entry in entries]}
    command = {"command": found[3].split()[0]} if kind == "flow_mod" else {}
    return {**told, **command, **our_row(found[3])}


def ask_ours(program: str, messages: list[tuple[bytes, Answer]]) -> list[tuple[Answer, str]]:
    """For each message what the program reads, and the bytes that it writes, or the name of a fault."""
    lines = "".join(f"message {text.hex()}\n#\n" for text, _ in messages)
    run = subprocess.run([program], input=lines, stdout=subprocess.PIPE, text=True, check=True)
    blocks = [block.splitlines() for block in run.stdout.split("#\n")[:-1]]
    return [(our_message(block[0]), block[-1]) for block in blocks]


# ---- what can be shown


def ovs_shown(pattern: Fields, normal: bool) -> Fields:
    """What Open vSwitch shows of a pattern. In the normal form of a flow mod, fields of other types are dropped."""
    shown = dict(pattern)
    for name, mask in [("dl_vlan_pcp", 7), ("nw_tos", 0xFC)]:
        if name in shown:
            shown[name] &= mask
    if shown.get("dl_vlan") == 0xFFFF:
        shown.pop("dl_vlan_pcp", None)
    if normal:
        kind, inner = shown.get("dl_type"), shown.get("nw_proto")
        dropped = [] if kind == 0x0800 else ["nw_tos"]
        dropped += [] if kind in (0x0800, 0x0806) else ["nw_src", "nw_dst", "nw_proto"]
        dropped += [] if kind == 0x0800 and inner in (1, 6, 17, 132) else ["tp_src", "tp_dst"]
        shown = {name: value for name, value in shown.items() if name not in dropped}
    return shown


def is_exact(pattern: Fields) -> bool:
    """Whether no field is wild, not even in part."""
    return BITS.keys() <= pattern.keys() and all(pattern.get(name, [0, 0])[1] == 32 for name in SHIFTS)


def shown(codec: str, message: Fields) -> Answer:
    """The fields of a message that a codec shows, or nothing if it refuses the message."""
    told = dict(message)
    if codec == "Open vSwitch" and message["kind"] == "reply":
        told["entries"] = [{**e, "pattern": ovs_shown(e["pattern"], False)} for e in message["entries"]]
    elif codec == "Open vSwitch":
        told["pattern"] = ovs_shown(message["pattern"], message["kind"] == "flow_mod")
        if message["kind"] == "flow_mod" and is_exact(message["pattern"]):
            told["priority"] = 0xFFFF
    elif codec == "tshark" and message["kind"] == "reply":
        del told["entries"]
    elif codec == "tshark" and message["kind"] == "flow_mod":
        if not message["actions"]:
            return None
        told["actions"] = [action for action in message["actions"][:1] if action[0] == "output"]
    return told
