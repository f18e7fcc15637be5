"""Policies of NetKAT for the scripts beside this file: how a text is read, how one is written, and what a policy gives
of one packet (POPL 2014, figure 2). It is slow and plain, and knows nothing of how the program does it."""

from __future__ import annotations

import re
from typing import Iterable, Iterator, NamedTuple

FIELDS = ("sw", "pt", "ethTyp", "ipProto", "ethSrc", "ethDst", "ip4Src", "ip4Dst", "tcpSrcPort", "tcpDstPort")
HEADER = FIELDS[2:]
PLACE_OF = {name: place for place, name in enumerate(FIELDS)}
IPV4 = 2048
TAGGED = 33024  # a type that no frame has by itself
PORTED = (6, 17)  # TCP and UDP
BITS = {"ethSrc": 48, "ethDst": 48, "ip4Src": 32, "ip4Dst": 32, "tcpSrcPort": 16, "tcpDstPort": 16}


class Packet(NamedTuple):
    """Where a packet stands, and its header."""

    sw: int
    pt: int
    ethTyp: int = IPV4
    ipProto: int = 0
    ethSrc: int = 0
    ethDst: int = 0
    ip4Src: int = 0
    ip4Dst: int = 0
    tcpSrcPort: int = 0
    tcpDstPort: int = 0


Policy = tuple
# ("skip",) ("drop",) ("dup",) ("test", f, n) ("not", p) ("set", f, n) ("sum", p, q ..) ("seq", p, q ..) ("star", p)
SKIP: Policy = ("skip",)
DROP: Policy = ("drop",)


class Unread(Exception):
    """A text that is none of what is read here."""


# ---- packets


def in_range(packet: Packet) -> bool:
    if not (1 <= packet.sw <= 65535 and 1 <= packet.pt <= 65279):
        return False
    if not (1536 <= packet.ethTyp <= 65535 and packet.ethTyp != TAGGED and 0 <= packet.ipProto <= 255):
        return False
    return all(0 <= packet[PLACE_OF[name]] < 1 << bits for name, bits in BITS.items())


def well_shaped(packet: Packet) -> bool:
    """In range, and without a field that its frame does not have."""
    if packet.ethTyp != IPV4 and (packet.ipProto or packet.ip4Src or packet.ip4Dst):
        return False
    has_ports = packet.ethTyp == IPV4 and packet.ipProto in PORTED
    return in_range(packet) and (has_ports or not (packet.tcpSrcPort or packet.tcpDstPort))


def value_text(name: str, value: int) -> str:
    if name == "ethTyp":
        return f"0x{value:04x}"
    if name in ("ethSrc", "ethDst"):
        return ":".join(f"{byte:02x}" for byte in value.to_bytes(6, "big"))
    if name in ("ip4Src", "ip4Dst"):
        return ".".join(str(byte) for byte in value.to_bytes(4, "big"))
    return str(value)


def packet_text(packet: Packet) -> str:
    fields = [f"{name}={value_text(name, packet[PLACE_OF[name]])}" for name in HEADER]
    return " ".join([f"{packet.sw}:{packet.pt}", *fields])


def read_value(name: str, text: str) -> int:
    if re.fullmatch(r"[0-9]{1,20}", text):
        return int(text)
    if re.fullmatch(r"0x[0-9a-fA-F]{1,16}", text):
        return int(text, 16)
    if name in ("ethSrc", "ethDst") and re.fullmatch(r"[0-9a-fA-F]{2}(:[0-9a-fA-F]{2}){5}", text):
        return int(text.replace(":", ""), 16)
    if name in ("ip4Src", "ip4Dst") and re.fullmatch(r"[0-9]{1,3}(\.[0-9]{1,3}){3}", text):
        parts = [int(part) for part in text.split(".")]
        if max(parts) <= 255:
            return int.from_bytes(bytes(parts), "big")
    raise Unread(f"{name}={text}")


def read_packet(text: str) -> Packet:
    """A packet as it is printed, with all fields of its header in order."""
    place, *fields = text.split()
    sw, pt = place.split(":")
    named = [field.split("=", 1) for field in fields]
    if tuple(name for name, _ in named) != HEADER:
        raise Unread(text)
    return Packet(int(sw), int(pt), *(read_value(name, value) for name, value in named))


# ---- what a policy gives


def results(policy: Policy, packet: Packet) -> set[Packet]:
    """The packets that a policy without `dup` gives of one packet."""
    kind = policy[0]
    if kind == "test":
        return {packet} if packet[PLACE_OF[policy[1]]] == policy[2] else set()
    if kind == "set":
        return {packet._replace(**{policy[1]: policy[2]})}
    if kind == "sum":
        return {given for part in policy[1:] for given in results(part, packet)}
    if kind == "seq":
        there = {packet}
        for part in policy[1:]:
            there = {given for at in there for given in results(part, at)}
        return there
    if kind == "not":
        return set() if results(policy[1], packet) else {packet}
    if kind == "star":
        there, new = {packet}, {packet}
        while new:
            new = {given for at in new for given in results(policy[1], at)} - there
            there |= new
        return there
    return {packet} if kind == "skip" else set()


def parts_of(policy: Policy) -> Iterator[Policy]:
    """A policy and all policies in it."""
    yield policy
    for part in policy[1:]:
        if isinstance(part, tuple):
            yield from parts_of(part)


def named_values(policies: Iterable[Policy]) -> dict[str, set[int]]:
    """The values that are tested or assigned, field by field."""
    named: dict[str, set[int]] = {name: set() for name in FIELDS}
    for policy in policies:
        for part in parts_of(policy):
            if part[0] in ("test", "set"):
                named[part[1]].add(part[2])
    return named


# ---- texts


def policy_text(policy: Policy) -> str:
    kind = policy[0]
    if kind in ("skip", "drop", "dup"):
        return kind
    if kind in ("test", "set"):
        return f"{policy[1]}{'=' if kind == 'test' else ':='}{policy[2]}"
    if kind == "not":
        return f"not ({policy_text(policy[1])})"
    if kind == "star":
        return f"({policy_text(policy[1])})*"
    mark = " + " if kind == "sum" else "; "
    return "(" + mark.join(policy_text(part) for part in policy[1:]) + ")"


TOKEN = re.compile(r"\s+|#[^\n]*|(:=|=)\s*([0-9A-Za-z.:]+)|([A-Za-z][0-9A-Za-z]*)|([+;()*])")


def tokens_of(text: str) -> list[str]:
    found, at = [], 0
    while at < len(text):
        match = TOKEN.match(text, at)
        if not match:
            raise Unread(text[at : at + 20])
        at = match.end()
        found += [group for group in match.groups() if group]
    return found


class Reader:
    """A policy, read by recursion over its grammar."""

    def __init__(self, text: str) -> None:
        self.tokens = [*tokens_of(text), ""]
        self.at = 0

    def next(self) -> str:
        self.at += 1
        return self.tokens[self.at - 1]

    def chain(self, mark: str, kind: str, part) -> Policy:
        parts = [part()]
        while self.tokens[self.at] == mark:
            self.at += 1
            parts.append(part())
        return parts[0] if len(parts) == 1 else (kind, *parts)

    def sum(self) -> Policy:
        return self.chain("+", "sum", lambda: self.chain(";", "seq", self.unary))

    def unary(self) -> Policy:
        if self.tokens[self.at] == "not":
            self.at += 1
            return ("not", self.unary())
        atom = self.atom()
        if self.tokens[self.at] == "*":
            self.at += 1
            return ("star", atom)
        return atom

    def atom(self) -> Policy:
        word = self.next()
        if word in ("skip", "drop", "dup"):
            return (word,)
        if word == "(":
            policy = self.sum()
            if self.next() != ")":
                raise Unread("a bracket that is not closed")
            return policy
        mark, value = self.next(), self.next()
        if word not in FIELDS or mark not in ("=", ":="):
            raise Unread(word)
        return ("test" if mark == "=" else "set", word, read_value(word, value))


def read_policy(text: str) -> Policy:
    reader = Reader(text)
    policy = reader.sum()
    if reader.next() != "":
        raise Unread(text)
    return policy


def read_policies(document: str) -> list[Policy]:
    """The policies of a document."""
    policies: list[Policy] = []
    block: list[str] | None = None
    for line in document.splitlines():
        if block is None:
            block = [] if line.partition("#")[0].split() == ["policy"] else None
        elif line.partition("#")[0].split() == ["end"]:
            policies.append(read_policy("\n".join(block)))
            block = None
        else:
            block.append(line)
    return policies
