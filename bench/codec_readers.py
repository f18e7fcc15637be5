"""How os-ken and scapy are asked, and how what they tell is brought into the form of `codec_messages`.

If this file is run with the name of a library, it reads with this library. A line is a pair in JSON: the bytes of a
message, and its fields or null. The answer is a line of the fields, or null if the bytes are refused."""

from __future__ import annotations

import contextlib
import io
import json
import signal
import subprocess
import sys
from typing import Any, Callable, Iterable, Optional

sys.dont_write_bytecode = True
from codec_messages import ACTIONS, BITS, COMMANDS, SHIFTS, Fields

NAMES = {kind: name for name, (kind, _, _) in ACTIONS.items()}
ENTRY = {
    "table": "table_id", "seconds": "duration_sec", "nanoseconds": "duration_nsec", "priority": "priority",
    "idle": "idle_timeout", "hard": "hard_timeout", "cookie": "cookie", "packets": "packet_count", "bytes": "byte_count",
}  # fmt: skip
Answer = Optional[Fields]


def as_number(value: Any) -> int:
    """A number, or an address as bytes or as text."""
    if not isinstance(value, str):
        return int.from_bytes(value, "big") if isinstance(value, bytes) else int(value)
    if "." in value:
        return int.from_bytes(bytes(map(int, value.split("."))), "big")
    return int(value.replace(":", ""), 16) if ":" in value else int(value, 0)


def pattern_of(is_wild: Callable[[str], bool], wild_bits: Callable[[str], int], value: Callable[[str], Any]) -> Fields:
    """The pattern of a match: of a field whether it is wild, of an address how many bits are."""
    pattern: Fields = {name: as_number(value(name)) for name in BITS if not is_wild(name)}
    for name in SHIFTS:
        wild = wild_bits(name)
        if wild < 32:
            pattern[name] = [as_number(value(name)) >> wild << wild, 32 - wild]
    return pattern


def action_of(action: Any, names: Iterable[str]) -> list[Any]:
    """An action of a library, whose value has one of these names."""
    values = [as_number(getattr(action, name)) for name in names if hasattr(action, name)]
    return [NAMES.get(action.type, f"type {action.type}"), *values]


def command_of(number: int) -> str:
    return COMMANDS[number] if number < len(COMMANDS) else f"command {number}"


# ---- os-ken and scapy, in a process of their own


def read_with_osken(bytes_: bytes, fields: Answer) -> Any:
    from os_ken.ofproto import ofproto_parser, ofproto_protocol, ofproto_v1_0_parser

    desc = ofproto_protocol.ProtocolDesc(1)
    if fields and fields["kind"] == "request":
        pattern = {k: v for k, v in fields["pattern"].items() if k not in SHIFTS}
        pattern.update({k: pattern[k].to_bytes(6, "big") for k in ("dl_src", "dl_dst") if k in pattern})
        for name in SHIFTS.keys() & fields["pattern"].keys():
            pattern[name], pattern[f"{name}_mask"] = fields["pattern"][name]
        match = ofproto_v1_0_parser.OFPMatch(**pattern)
        request = ofproto_v1_0_parser.OFPFlowStatsRequest(desc, 0, match, fields["table"], fields["out_port"])
        request.set_xid(fields["xid"])
        request.serialize()
        return {"kind": "written", "bytes": bytes(request.buf).hex()}
    read = ofproto_parser.msg(desc, *ofproto_parser.header(bytes_), bytes_)

    def match_of(match: Any) -> Fields:
        def is_wild(name: str) -> bool:
            try:
                match[name]
            except KeyError:
                return True
            return False

        return pattern_of(is_wild, lambda name: 32 - match[f"{name}_mask"], lambda name: getattr(match, name))

    def actions_of(actions: Any) -> list[Any]:
        return [action_of(a, ("port", "vlan_vid", "dl_addr", "nw_addr", "tp")) for a in actions]

    if read is None or read.msg_type not in (14, 17):
        return None
    return library_message(read, read.xid, getattr(read, "body", None), match_of, actions_of)


def read_with_scapy(bytes_: bytes, _fields: Answer) -> Any:
    from scapy.contrib.openflow import OFPAT, OpenFlow
    from scapy.packet import NoPayload

    read = OpenFlow(bytes_)

    def match_of(match: Any) -> Fields:
        def is_wild(name: str) -> bool:
            return getattr(match.wildcards1 if name in ("dl_vlan_pcp", "nw_tos") else match.wildcards2, name.upper())

        return pattern_of(is_wild, lambda name: getattr(match, f"{name}_mask"), lambda name: getattr(match, name))

    def actions_of(actions: Any) -> list[Any]:
        told, rest = [], list(actions)
        while rest:
            action = rest.pop(0)
            told.append(action_of(action, ("port", "vlan_vid", "dl_addr", "nw_addr", "tp_port")))
            if not isinstance(action.payload, NoPayload):
                rest.append(OFPAT(bytes(action.payload)))
        return told

    if not isinstance(read.payload, NoPayload) or getattr(read, "type", None) not in (14, 16, 17):
        return None
    return library_message(read, read.xid, getattr(read, "flow_stats", None), match_of, actions_of)


def library_message(read: Any, xid: int, entries: Any, match_of: Any, actions_of: Any) -> Fields:
    """A message of a library, whose entries, matches and actions are read so."""
    if entries is not None:
        told = [{name: int(getattr(e, theirs)) for name, theirs in ENTRY.items()} for e in entries]
        for entry, theirs in zip(told, entries):
            entry.update(pattern=match_of(theirs.match), actions=actions_of(theirs.actions))
        return {"kind": "reply", "xid": xid, "more": bool(int(read.flags) & 1), "entries": told}
    head = {"xid": xid, "pattern": match_of(read.match), "out_port": int(read.out_port)}
    if hasattr(read, "table_id"):
        return {"kind": "request", "table": int(read.table_id), **head}
    command = command_of(read.cmd if hasattr(read, "cmd") else read.command)
    told = {"command": command, "priority": read.priority, "actions": actions_of(read.actions)}
    return {"kind": "flow_mod", **told, **head}


def serve(read: Callable[[bytes, Answer], Any]) -> int:
    """Answers line by line. A message that is not read after two seconds of the processor is said to have no end."""
    stopped = []

    def stop(*_: Any) -> None:
        stopped.append(True)
        raise TimeoutError

    signal.signal(signal.SIGVTALRM, stop)
    for line in sys.stdin:
        stopped.clear()
        text, fields = json.loads(line)
        signal.setitimer(signal.ITIMER_VIRTUAL, 2)
        try:
            with contextlib.redirect_stdout(io.StringIO()):
                answer = read(bytes.fromhex(text), fields)
        except Exception:  # a library refuses by an exception of any class
            answer = None
        signal.setitimer(signal.ITIMER_VIRTUAL, 0)
        print(json.dumps({"kind": "no end"} if stopped else answer))
    return 0


def ask_library(name: str, messages: list[tuple[bytes, Answer]]) -> list[Any]:
    lines = "".join(json.dumps([text.hex(), fields]) + "\n" for text, fields in messages)
    words = ["/usr/bin/python3", __file__, name]
    run = subprocess.run(words, input=lines, stdout=subprocess.PIPE, stderr=subprocess.DEVNULL, text=True, check=True)
    return [json.loads(line) for line in run.stdout.splitlines()]


if __name__ == "__main__":
    sys.exit(serve({"os-ken": read_with_osken, "scapy": read_with_scapy}[sys.argv[1]]))
