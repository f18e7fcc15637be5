"""Schedules of single events, drawn one after the other among those that can happen."""

from __future__ import annotations

import random
from collections import deque
from typing import Dict, List, Tuple

# How often an event is drawn, of those that can happen.
WEIGHTS = {
    "send": 6, "take": 6, "apply": 6, "reply": 6, "heard": 6, "arrive": 1, "hop": 1, "flow": 0.3, "settle": 0.01,
    "begin": 1, "drained": 1, "lost": 0.02, "rejoin": 2, "stuck": 0.02,
}  # fmt: skip


def count_rows(rules: List[str], edges: List[str]) -> List[Dict[int, Tuple[int, List[int]]]]:
    """For each policy and switch: the rows at linked ports, and the lengths of the lists at edge ports."""
    policies: List[Dict[int, Tuple[int, Dict[str, int]]]] = []
    switch, inner, outer = 0, 0, {}
    for line in rules:
        word, *rest = line.split()
        if word == "policy":
            policies.append({})
        elif word == "switch":
            switch, inner, outer = int(rest[0]), 0, {}
        else:
            port = rest[0][len("in=") :]
            if f"{switch}:{port}" in edges:
                outer[port] = outer.get(port, 0) + 1
            else:
                inner += 1
        if word != "policy":
            policies[-1][switch] = (inner, outer)
    return [{each: (rows, list(lists.values())) for each, (rows, lists) in policy.items()} for policy in policies]


class Switch:
    def __init__(self) -> None:
        self.to_switch, self.to_controller = deque(), deque(["hello"])
        self.queue = deque(["hello"])  # what the controller has to send now
        self.pending, self.awaits, self.away, self.is_up, self.done = 0, False, False, False, False


class Driver:
    """What can happen, as far as it hangs on messages. Copies in flight are not followed."""

    def __init__(self, draw: random.Random, rows: List[Dict[int, Tuple[int, List[int]]]], packets: int, low: int, high: int):
        self.draw, self.rows, self.packets, self.low, self.span = draw, rows, packets, low, high - low + 1
        self.switches = {number: Switch() for number in rows[0]}
        self.phase: Tuple = ("opening",)

    def batch(self, switch: int) -> List[str]:
        """What the present phase has for a switch."""
        name, *numbers = self.phase
        if name in ("idle", "drain"):
            return []
        if name == "opening":
            return ["mod", "barrier"]
        number = numbers[0]
        inner, outer = self.rows[number - 1][switch]
        before = self.rows[number - 2][switch] if number > 1 else (0, [])
        if name == "install":
            count = inner + (sum(outer) if number % 2 == 0 else 0)
        elif name == "clean":
            count = before[0] + (sum(before[1]) if number % 2 == 1 else 0)
        else:
            count = sum(numbers[1] <= length for length in (outer if number % 2 else before[1]))
        return ["mod"] * count + ["barrier"]

    def enter(self, phase: Tuple) -> None:
        self.phase = phase
        for number, switch in self.switches.items():
            switch.done = False
            # one that is not up gets the batch after its greeting
            if switch.is_up:
                switch.queue.extend(self.batch(number))

    def advance(self) -> None:
        """All switches have answered."""
        name, *numbers = self.phase
        if name == "opening":
            return self.enter(("idle", 0))
        number = numbers[0]
        if name == "install":
            return self.enter(("flip", number, 1))
        if name == "clean":
            return self.enter(("idle", number))
        flipped = number if number % 2 else number - 1
        longest = max(length for _, lists in self.rows[flipped - 1].values() for length in lists)
        if numbers[1] < longest:
            return self.enter(("flip", number, numbers[1] + 1))
        return self.enter(("drain", number) if number > 1 else ("idle", 1))

    def possible(self) -> List[str]:
        found = [f"arrive {self.draw.randint(1, self.packets)}", f"hop {self.draw.choice((0, 0, 1))}", "flow", "settle"]
        if self.phase[0] == "idle" and self.phase[1] < len(self.rows):
            found.append("begin")
        if self.phase[0] == "drain":
            found += [f"drained {self.low + (self.phase[1] - 2) % self.span}", "stuck 0"]
        for number, switch in self.switches.items():
            found += [f"rejoin {number}"] if switch.away else [f"lost {number}"]
            found += [f"send {number}"] if switch.queue else []
            found += [f"take {number}"] if switch.to_switch and not switch.awaits else []
            found += [f"apply {number} {self.draw.randrange(switch.pending)}"] if switch.pending else []
            found += [f"reply {number}"] if switch.awaits and not switch.pending else []
            found += [f"heard {number}"] if switch.to_controller else []
        return found

    def do(self, event: str) -> None:
        word, *rest = event.split()
        if word == "begin":
            self.enter(("install", self.phase[1] + 1))
        elif word == "drained":
            self.enter(("clean", self.phase[1]))
        elif word == "settle":
            self.settle()
        elif word in ("send", "take", "apply", "reply", "heard", "lost", "rejoin"):
            self.at_switch(word, int(rest[0]))

    def settle(self) -> None:
        while True:
            words = [event for event in self.possible() if event.split()[0] in ("heard", "reply", "apply", "take", "send")]
            if not words:
                return
            self.do(words[0])

    def at_switch(self, word: str, number: int) -> None:
        switch = self.switches[number]
        if word == "send":
            switch.to_switch.append(switch.queue.popleft())
        elif word == "take":
            taken = switch.to_switch.popleft()
            switch.pending += taken == "mod"
            switch.awaits = taken == "barrier"
            if taken == "features":
                switch.to_controller.append("features")
        elif word == "apply":
            switch.pending -= 1
        elif word == "reply":
            switch.awaits = False
            switch.to_controller.append("reply")
        elif word == "heard":
            self.hear(number, switch, switch.to_controller.popleft())
        elif word == "lost":
            switch.away, switch.awaits, switch.is_up = True, False, False
            for channel in (switch.to_switch, switch.to_controller, switch.queue):
                channel.clear()
        else:
            switch.away = False
            switch.to_controller.append("hello")
            switch.queue.append("hello")

    def hear(self, number: int, switch: Switch, message: str) -> None:
        if message == "hello":
            switch.queue.append("features")
        elif message == "features":
            switch.is_up = True
            switch.queue.extend([] if switch.done else self.batch(number))
        else:
            switch.done = True
            if all(each.done for each in self.switches.values()):
                self.advance()

    def draw_schedule(self, count: int) -> List[str]:
        events = []
        for _ in range(count):
            found = self.possible()
            event = self.draw.choices(found, [WEIGHTS[each.split()[0]] for each in found])[0]
            self.do(event)
            events.append(event)
        return events
