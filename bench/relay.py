"""A relay between a bridge and its controller, which notes when it passed which bytes on, and what a batch took there."""

from __future__ import annotations

import select
import socket
import threading
import time
from typing import Iterator, NamedTuple, Optional

FLOW_MOD, BARRIER_REQUEST, BARRIER_REPLY = 14, 18, 19
PIECE = 1 << 18


class Passed(NamedTuple):
    """Bytes that were passed on, and when."""

    at: float
    by_switch: bool
    data: bytes


class Message(NamedTuple):
    """A message of OpenFlow, and when its last byte was passed on."""

    at: float
    kind: int
    number: int


class Relay:
    """Passes bytes on between whoever comes in at one port and who listens at another, while the block runs."""

    def __init__(self, port: int, target: int) -> None:
        self.port, self.target = port, target
        self.passed: list[Passed] = []
        self.ended = threading.Event()

    def __enter__(self) -> Relay:
        self.door = socket.create_server(("127.0.0.1", self.port))
        self.door.settimeout(0.1)
        self.thread = threading.Thread(target=self.work)
        self.thread.start()
        return self

    def __exit__(self, *_) -> None:
        self.ended.set()
        self.thread.join()
        self.door.close()

    def work(self) -> None:
        while not self.ended.is_set():
            try:
                switch, _ = self.door.accept()
            except socket.timeout:
                continue
            with switch:
                self.serve(switch)

    def serve(self, switch: socket.socket) -> None:
        """One connection of the bridge. It is closed at once if nobody listens at the other port."""
        try:
            controller = socket.create_connection(("127.0.0.1", self.target))
        except OSError:
            return
        with controller:
            for end in (switch, controller):
                end.setsockopt(socket.IPPROTO_TCP, socket.TCP_NODELAY, 1)
            self.pass_on(switch, controller)

    def pass_on(self, switch: socket.socket, controller: socket.socket) -> None:
        while not self.ended.is_set():
            for end in select.select([switch, controller], [], [], 0.1)[0]:
                try:
                    data = end.recv(PIECE)
                    (controller if end is switch else switch).sendall(data)
                except OSError:
                    return
                if not data:
                    return
                self.passed.append(Passed(time.perf_counter(), end is switch, data))


def messages(passed: list[Passed], by_switch: bool) -> Iterator[Message]:
    """The messages of one side."""
    held = bytearray()
    for piece in passed:
        if piece.by_switch != by_switch:
            continue
        held += piece.data
        start = 0
        while len(held) - start >= 8:
            length = int.from_bytes(held[start + 2 : start + 4], "big")
            if length < 8 or len(held) - start < length:
                break
            yield Message(piece.at, held[start + 1], int.from_bytes(held[start + 4 : start + 8], "big"))
            start += length
        del held[:start]


def batch_seconds(passed: list[Passed]) -> Optional[float]:
    """From the reply that ended the batch before the greatest one to the reply that ended that one; none without both."""
    replies = {message.number: message.at for message in messages(passed, True) if message.kind == BARRIER_REPLY}
    batches, count, before = [], 0, None
    for message in messages(passed, False):
        if message.kind == FLOW_MOD:
            count += 1
        elif message.kind == BARRIER_REQUEST:
            batches.append((count, replies.get(before), replies.get(message.number)))
            count, before = 0, message.number
    _, start, end = max(batches, key=lambda batch: batch[0], default=(0, None, None))
    return end - start if start and end else None
