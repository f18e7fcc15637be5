"""The list of copies in flight, followed through the hops of a journal."""

from __future__ import annotations

from typing import Dict, List, Optional, Tuple

from documents import Document
from histories import Node, Tree
from journal import Moment
from meaning import Fault
from phases import show_phase

# A copy in flight, and the policy that its packet met.
Flight = Tuple[int, Node]
TRIES = 300


class Misfit(Exception):
    """An order of copies that the hops do not fit."""


class Choices:
    """Choices that are tried one list after the other, the usual ones first."""

    def __init__(self) -> None:
        self.made: List[List[int]] = []  # the choice, and how many there are
        self.place = 0

    def choose(self, count: int) -> int:
        if count == 1:
            return 0
        if self.place == len(self.made):
            self.made.append([0, count])
        self.place += 1
        return self.made[self.place - 1][0]

    def advance(self) -> bool:
        """Goes on to the next list, if there is one."""
        del self.made[self.place :]
        self.place = 0
        while self.made and self.made[-1][0] + 1 == self.made[-1][1]:
            self.made.pop()
        if not self.made:
            return False
        self.made[-1][0] += 1
        return True


class FlightList:
    """Copies in flight. The order of the copies of one hop depends on rows, so orders are tried until all hops fit."""

    def __init__(self, document: Document, trees: List[Dict[int, Tree]], choices: Choices) -> None:
        self.document, self.trees, self.choices = document, trees, choices
        self.flights: List[List[Flight]] = []  # the copies of one hop, of which each place has one
        self.arrived = 0

    def put(self, policy: int, node: Node) -> None:
        group = [(policy, child) for child in node.children]
        self.flights += [group] * len(group)

    def on_arrive(self) -> None:
        trees = self.trees[self.arrived]
        self.arrived += 1
        policy = list(trees)[self.choices.choose(len(trees))]
        self.put(policy, trees[policy].root)

    def on_hop(self, place: int) -> None:
        if place >= len(self.flights):
            raise Misfit("there is no such copy")
        group = self.flights.pop(place)
        ready = [flight for flight in group if not flight[1].is_open]
        if not ready:
            raise Misfit("the report has this copy as open")
        chosen = ready[self.choices.choose(len(ready))]
        rest = [flight for flight in group if flight is not chosen]
        self.flights = [rest if other is group else other for other in self.flights]
        self.put(*chosen)

    def is_clear(self, policy: int) -> bool:
        """Whether no copy in flight carries the stamp of a policy."""
        stamp = self.document.stamp(policy)
        return all(self.document.stamp(flight[0]) != stamp for group in self.flights for flight in group)

    def follow(self, moments: List[Moment]) -> None:
        for number, moment in enumerate(moments, 1):
            word, *rest = moment.words
            try:
                if word == "arrive":
                    self.on_arrive()
                elif word == "hop":
                    self.on_hop(int(rest[0]))
                elif word == "drained" and not self.is_clear(moment.leaving or 0):
                    raise Misfit(f"a copy carries this stamp in phase {show_phase(moment.phase)}")
                elif word == "stuck" and self.is_clear(moment.leaving or 0):
                    raise Misfit("no copy carries the stamp that is waited for")
            except Misfit as why:
                raise Misfit(f"event {number} ({word} {' '.join(rest[:1])}): {why}") from None
        if any(not flight[1].is_open for group in self.flights for flight in group):
            raise Misfit("a copy is left in flight that is not open in the report")


def follow_flights(document: Document, moments: List[Moment], trees: List[Dict[int, Tree]]) -> Optional[str]:
    """Follows the hops. It gives a note if orders were left untried."""
    hops = sum(moment.words[0] == "hop" for moment in moments)
    least, most = (sum(pick(tree.handled for tree in each.values()) for each in trees) for pick in (min, max))
    if not least <= hops <= most:
        raise Fault(f"there are {hops} hops, and {least} copies that took one: a copy is there twice, or missing")
    choices = Choices()
    for _ in range(TRIES):
        try:
            FlightList(document, trees, choices).follow(moments)
            return None
        except Misfit as why:
            if not choices.advance():
                raise Fault(str(why)) from None
    return f"the hops fit none of {TRIES} orders of copies, and others were left untried"
