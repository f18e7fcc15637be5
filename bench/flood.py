"""Numbered packets into edge ports of bridges, and what comes out of them. Each packet is a UDP datagram; the policies of
`bench/ovs` write their number into a field of it at each switch, so what comes out tells by which policies it was handled."""

from __future__ import annotations

import errno
import multiprocessing
import select
import socket
import struct
import time
from collections import Counter, defaultdict
from dataclasses import dataclass, field
from typing import NamedTuple, Optional

MAGIC = b"nkctlovs"
CLIENT, SERVICE = 1, 9  # the two Ethernet addresses
UNMARKED = (7, 7, 0)  # the ports and the last byte of the source address of a packet that no switch has marked
MARKS = (1000, 2000, 0)  # what the switches add the number of a policy to
PAUSE = 0.002  # seconds between two bursts of a sender
ROOM = 1 << 28  # bytes for packets that wait to be read
SO_RCVBUFFORCE, PACKET_OUTGOING, SOL_PACKET, PACKET_STATISTICS = 33, 4, 263, 6


class Flow(NamedTuple):
    """Packets of one kind: the interface that they go into, and the addresses."""

    interface: str
    source: int
    target: int


class Seen(NamedTuple):
    """A packet that came out: its flow, its number, where it came out, and the marks of the three switches."""

    flow: int
    number: int
    interface: str
    marks: tuple[int, int, int]


def frame(flow: Flow, which: int, number: int) -> bytes:
    """The packet of a flow with this number; the flow is the one at place `which`."""
    body = MAGIC + struct.pack("!BQ", which, number)
    datagram = struct.pack("!HHHH", UNMARKED[0], UNMARKED[1], 8 + len(body), 0) + body
    address = bytes((10, 0, 3, UNMARKED[2]))
    head = struct.pack("!BBHHHBBH4s4s", 0x45, 0, 20 + len(datagram), 0, 0, 64, 17, 0, address, bytes((10, 0, 0, 9)))
    total = sum(struct.unpack("!10H", head))
    total = (total & 0xFFFF) + (total >> 16)
    head = head[:10] + struct.pack("!H", ~(total + (total >> 16)) & 0xFFFF) + head[12:]
    return flow.target.to_bytes(6, "big") + flow.source.to_bytes(6, "big") + b"\x08\x00" + head + datagram


def read_frame(data: bytes, interface: str) -> Optional[Seen]:
    """What a packet says that came out, or none if it is no packet of a flow."""
    if data[12:14] != b"\x08\x00" or data[42:50] != MAGIC:
        return None
    flow, number = struct.unpack("!BQ", data[50:59])
    ports = struct.unpack("!HH", data[34:38])
    return Seen(flow, number, interface, (*ports, data[29]))


def open_port(interface: str) -> socket.socket:
    port = socket.socket(socket.AF_PACKET, socket.SOCK_RAW, socket.htons(3))
    port.bind((interface, 0))
    return port


def send_all(flows: list[Flow], rate: int, stop, answer) -> None:
    """Sends packets of each flow until it is told to stop, and answers how many of each."""
    ports = [open_port(flow.interface) for flow in flows]
    sent, began = [0] * len(flows), time.monotonic()
    while not stop.is_set():
        due = int((time.monotonic() - began) * rate)
        for number, (flow, port) in enumerate(zip(flows, ports)):
            sent[number] = send_up_to(port, flow, number, sent[number], due)
        time.sleep(PAUSE)
    answer.send(sent)


def send_up_to(port: socket.socket, flow: Flow, number: int, sent: int, due: int) -> int:
    """Sends what is due. A packet for which the interface has no room is not sent, and comes first the next time."""
    while sent < due:
        try:
            port.send(frame(flow, number, sent))
        except OSError as error:
            if error.errno != errno.ENOBUFS:
                raise
            break
        sent += 1
    return sent


def hear_all(interfaces: list[str], ready, stop, answer) -> None:
    """Notes what comes out of the interfaces until it is told to stop. Answers that, and how many packets were not read."""
    ports = {open_port(name): name for name in interfaces}
    for port in ports:
        port.setsockopt(socket.SOL_SOCKET, SO_RCVBUFFORCE, ROOM)
    ready.set()
    seen: list[Seen] = []
    while True:
        readable, _, _ = select.select(list(ports), [], [], 0.1)
        for port in readable:
            data, address = port.recvfrom(2048)
            packet = read_frame(data, ports[port]) if address[2] != PACKET_OUTGOING else None
            if packet:
                seen.append(packet)
        if not readable and stop.is_set():
            break
    unread = sum(struct.unpack("II", port.getsockopt(SOL_PACKET, PACKET_STATISTICS, 8))[1] for port in ports)
    answer.send((seen, unread))


class Flood:
    """Packets of some flows, again and again, while the block runs."""

    def __init__(self, flows: list[Flow], interfaces: list[str], rate: int) -> None:
        self.flows, self.interfaces, self.rate = flows, interfaces, rate
        self.sent: list[int] = []
        self.seen: list[Seen] = []
        self.unread = 0

    def __enter__(self) -> Flood:
        ready, self.stop, self.last = (multiprocessing.Event() for _ in range(3))
        self.counts, counts = multiprocessing.Pipe(duplex=False)
        self.heard, heard = multiprocessing.Pipe(duplex=False)
        hearing = (self.interfaces, ready, self.last, heard)
        self.parts = [
            multiprocessing.Process(target=hear_all, args=hearing, daemon=True),
            multiprocessing.Process(target=send_all, args=(self.flows, self.rate, self.stop, counts), daemon=True),
        ]
        self.parts[0].start()
        ready.wait()
        self.parts[1].start()
        return self

    def __exit__(self, *_) -> None:
        self.stop.set()
        self.sent = self.counts.recv()
        time.sleep(1)
        self.last.set()
        self.seen, self.unread = self.heard.recv()
        for part in self.parts:
            part.join()


@dataclass
class Verdict:
    """What became of the packets of a flood."""

    sent: int = 0  # from the first of a flow that came out on
    came: int = 0
    twice: int = 0
    lost: int = 0
    mixed: list[Seen] = field(default_factory=list)  # those that no policy by itself explains
    by_policy: Counter = field(default_factory=Counter)


def judge(flood: Flood, explained: dict[tuple, int]) -> Verdict:
    """`explained` has the policy of each flow, interface and marks that one policy by itself gives."""
    verdict, numbers = Verdict(), defaultdict(Counter)
    for packet in flood.seen:
        numbers[packet.flow][packet.number] += 1
        policy = explained.get((packet.flow, packet.interface, packet.marks))
        if policy is None:
            verdict.mixed.append(packet)
        else:
            verdict.by_policy[policy] += 1
    for flow, sent in enumerate(flood.sent):
        came = numbers[flow]
        first = min(came, default=sent)
        verdict.sent += sent - first
        verdict.came += len(came)
        verdict.twice += sum(came.values()) - len(came)
        verdict.lost += sent - first - len(came)
    return verdict
