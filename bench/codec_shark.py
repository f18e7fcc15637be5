"""How tshark is asked, and how what it tells is brought into the form of `codec_messages`."""

from __future__ import annotations

import json
import subprocess
import tempfile
from pathlib import Path
from typing import Callable, Optional

from codec_messages import BITS, SHIFTS, Fields
from codec_readers import Answer, as_number, command_of, pattern_of

SHARK = {
    "in_port": "in_port", "dl_src": "eth_src", "dl_dst": "eth_dst", "dl_vlan": "dl_vlan", "dl_vlan_pcp": "dl_vlan_pcp",
    "dl_type": "ofp_match.dl_type", "nw_tos": "ofp_match.tos", "nw_proto": "ofp_match.nw_proto",
    "nw_src": "ofp_match.source_addr", "nw_dst": "ofp_match.dest_addr", "tp_src": "ofp_match.source_port",
    "tp_dst": "ofp_match.dest_port",
}  # fmt: skip


def shark_pattern(value: Callable[[str], int]) -> Fields:
    """The dissector tells the wildcards as a number, whose bits stand in 5.2.3 of the standard."""
    wilds = value("wildcards")
    return pattern_of(
        lambda name: bool(wilds >> BITS[name] & 1),
        lambda name: wilds >> SHIFTS[name] & 63,
        lambda name: value(SHARK[name]),
    )


def shark_message(layer: Optional[Fields]) -> Answer:
    """What the dissector tells: no entries of a reply, and of the actions only a first one that is an output."""
    text = json.dumps(layer)
    if layer is None or "_ws.malformed" in text or "openflow.xid" not in layer:
        return None

    def value(name: str) -> int:
        return as_number(layer[f"openflow.{name}"])

    kind = {14: "flow_mod", 16: "request", 17: "reply"}[as_number(layer["openflow_1_0.type"])]
    told: Fields = {"kind": kind, "xid": value("xid")}
    if kind == "reply":
        return {**told, "more": bool(value("flags") & 1)}
    told.update(pattern=shark_pattern(value), out_port=value("out_port"))
    if kind == "request":
        return {**told, "table": value("table_id")}
    outputs = [["output", value("output_port")]] if "openflow.output_port" in layer else []
    return {**told, "command": command_of(value("command")), "priority": value("priority"), "actions": outputs}


def ask_shark(messages: list[tuple[bytes, Answer]]) -> list[Answer]:
    """One capture of all messages, each in a segment of one TCP stream from port 6653."""
    with tempfile.TemporaryDirectory() as folder:
        dump = Path(folder, "dump")
        dump.write_text("".join(f"0000 {text.hex(' ')}\n" for text, _ in messages))
        words = ["text2pcap", "-q", "-T", "6653,40000", str(dump), f"{dump}.pcap"]
        subprocess.run(words, check=True, stderr=subprocess.DEVNULL)
        words = ["tshark", "-r", f"{dump}.pcap", "-T", "json", "-J", "openflow_v1 _ws.malformed"]
        run = subprocess.run(words, stdout=subprocess.PIPE, stderr=subprocess.DEVNULL, text=True, check=True)
    packets = [packet["_source"]["layers"] for packet in json.loads(run.stdout)]
    return [None if "_ws.malformed" in p else shark_message(p.get("openflow_v1")) for p in packets]
