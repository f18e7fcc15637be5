"""NetKAT as POPL 2014 defines it: packets, policies read from text, and what a policy gives of a packet."""

from __future__ import annotations

import re
from typing import Callable, FrozenSet, List, Tuple

FIELDS = (
    "sw", "pt", "ethTyp", "ipProto", "ethSrc", "ethDst", "ip4Src", "ip4Dst", "tcpSrcPort", "tcpDstPort",
)  # fmt: skip
HEADER = FIELDS[2:]
IPV4 = 2048

# The ten numbers of a packet, in the order of FIELDS.
Packet = Tuple[int, ...]

# What a policy without `dup` gives of a packet: a set.
Meaning = Callable[[Packet], FrozenSet[Packet]]


class Fault(Exception):
    """What is wrong with a text, or with what it says."""


def read_value(text: str) -> int:
    """A value: decimal, hexadecimal after `0x`, an Ethernet address or an IPv4 address."""
    if text.count(":") == 5:
        return int(text.replace(":", ""), 16)
    if text.count(".") == 3:
        return int.from_bytes(bytes(int(part) for part in text.split(".")), "big")
    return int(text[2:], 16) if text.startswith("0x") else int(text, 10)


def show_value(name: str, value: int) -> str:
    """A value as the reports print it."""
    if name == "ethTyp":
        return f"0x{value:04x}"
    if name.startswith("eth"):
        return ":".join(f"{byte:02x}" for byte in value.to_bytes(6, "big"))
    if name.startswith("ip4"):
        return ".".join(str(byte) for byte in value.to_bytes(4, "big"))
    return str(value)


def make_packet(place: Tuple[int, int], **header: int) -> Packet:
    """A packet at a port. A field that is not named is 0, and ethTyp is that of IPv4."""
    values = {"ethTyp": IPV4, **header}
    return (*place, *(values.get(name, 0) for name in HEADER))


# ---- what a policy means


def skip(packet: Packet) -> FrozenSet[Packet]:
    return frozenset((packet,))


def drop(packet: Packet) -> FrozenSet[Packet]:
    return frozenset()


def test(place: int, value: int) -> Meaning:
    return lambda packet: frozenset((packet,)) if packet[place] == value else frozenset()


def assign(place: int, value: int) -> Meaning:
    return lambda packet: frozenset((packet[:place] + (value,) + packet[place + 1 :],))


def negate(policy: Meaning) -> Meaning:
    return lambda packet: frozenset() if policy(packet) else frozenset((packet,))


def add(parts: List[Meaning]) -> Meaning:
    return lambda packet: frozenset().union(*(part(packet) for part in parts))


def follow(parts: List[Meaning]) -> Meaning:
    """One part after the other, each on all that the part before gave."""

    def meaning(packet: Packet) -> FrozenSet[Packet]:
        here = frozenset((packet,))
        for part in parts:
            here = frozenset().union(*(part(each) for each in here))
        return here

    return meaning


def repeat(body: Meaning) -> Meaning:
    """Any number of turns: all that can be reached."""

    def meaning(packet: Packet) -> FrozenSet[Packet]:
        found, new = {packet}, {packet}
        while new:
            new = {given for each in new for given in body(each)} - found
            found |= new
        return frozenset(found)

    return meaning


# ---- policies as texts

TOKEN = re.compile(r"[ \t\r\n]*(?:([A-Za-z][A-Za-z0-9]*)|(:=|=)[ \t\r\n]*([A-Za-z0-9.:]+)|([+;*()])|(\S))")


class Reader:
    """A policy, read from left to right."""

    def __init__(self, text: str) -> None:
        plain = "\n".join(line.partition("#")[0] for line in text.split("\n"))
        self.tokens = [found.groups() for found in TOKEN.finditer(plain)]
        self.place = 0

    def next(self) -> Tuple:
        return self.tokens[self.place] if self.place < len(self.tokens) else (None,) * 5

    def takes(self, mark: str) -> bool:
        """Whether the next token is this mark or name; then it is taken."""
        name, _, _, sign, _ = self.next()
        if mark not in (name, sign):
            return False
        self.place += 1
        return True

    def chain(self, mark: str, part: Callable[[], Meaning], join: Callable[[List[Meaning]], Meaning]) -> Meaning:
        parts = [part()]
        while self.takes(mark):
            parts.append(part())
        return parts[0] if len(parts) == 1 else join(parts)

    def policy(self) -> Meaning:
        return self.chain("+", self.sequence, add)

    def sequence(self) -> Meaning:
        return self.chain(";", self.unary, follow)

    def unary(self) -> Meaning:
        if self.takes("not"):
            return negate(self.unary())
        atom = self.atom()
        return repeat(atom) if self.takes("*") else atom

    def atom(self) -> Meaning:
        if self.takes("("):
            inner = self.policy()
            if not self.takes(")"):
                raise Fault("a bracket of a policy is not closed")
            return inner
        for name, meaning in (("skip", skip), ("drop", drop)):
            if self.takes(name):
                return meaning
        return self.literal()

    def literal(self) -> Meaning:
        """A field with `=` or `:=` and a value."""
        name = self.next()[0]
        self.place += 1
        _, mark, value, _, _ = self.next()
        self.place += 1
        if name not in FIELDS or mark is None:
            raise Fault(f"a policy has {name or 'an end'} with no test and no assignment")
        make = test if mark == "=" else assign
        return make(FIELDS.index(name), read_value(value))


def read_policy(text: str) -> Meaning:
    """The meaning of a policy's text. It has no `dup`, since no accepted document has one."""
    reader = Reader(text)
    meaning = reader.policy()
    if reader.place < len(reader.tokens):
        raise Fault("a policy goes on after its end")
    return meaning
