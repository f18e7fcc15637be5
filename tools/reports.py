"""Reports, as `nkctl simulate`, `run`, `watch` and `audit` print them."""

from __future__ import annotations

from dataclasses import dataclass, field
from typing import Iterable, List, Optional, Tuple

from meaning import Fault

Place = Tuple[int, int]


@dataclass
class Arrival:
    """A packet that came in: the policies that it may have met, and its histories as they are printed."""

    place: Optional[Place]
    entry: List[int]
    done: List[str] = field(default_factory=list)
    open: List[str] = field(default_factory=list)


@dataclass
class Report:
    events: List[str] = field(default_factory=list)
    phase: str = ""
    draining: List[int] = field(default_factory=list)
    halt: Optional[str] = None
    arrivals: List[Arrival] = field(default_factory=list)
    audit: List[str] = field(default_factory=list)
    seen: List[Tuple[int, str]] = field(default_factory=list)

    @property
    def phase_words(self) -> Tuple:
        """The phase as its name and its numbers."""
        return phase_words(self.phase)


def phase_words(text: str) -> Tuple:
    """A phase as its name and its numbers."""
    name, *numbers = text.split()
    return (name, *map(int, numbers))


def read_arrival(words: List[str]) -> Arrival:
    """An arrival, of `N at S:B policy I`, with ` or I` in a flip."""
    switch, port = words[2].split(":")
    return Arrival((int(switch), int(port)), [int(word) for word in words[4::2]])


def add_line(report: Report, line: str) -> None:
    word, _, rest = line.partition(" ")
    if report.phase and word in ("e", "phase") or report.halt and word == "halted":
        raise ValueError(line)
    if word == "e":
        report.events.append(rest)
    elif word == "phase":
        report.phase = rest
    elif word == "draining":
        if report.draining or not rest:
            raise ValueError(line)
        report.draining = [int(stamp) for stamp in rest.split()]
    elif word == "halted":
        report.halt = rest
    elif word == "arrival":
        report.arrivals.append(read_arrival(rest.split()))
    elif word in ("done", "open"):
        lines = getattr(report.arrivals[-1], word)
        if rest in lines:
            raise ValueError(line)
        lines.append(rest)
    elif word == "audit":
        report.audit.append(rest)
    elif word == "seen":
        count, _, phase = rest.partition(" ")
        report.seen.append((int(count), phase))
    else:
        raise ValueError(line)


def read_report(lines: Iterable[str]) -> Report:
    """The report that these lines are."""
    report = Report()
    for number, line in enumerate(lines, 1):
        line = line.partition("#")[0].rstrip()
        if line.startswith(("nkctl: ", "usage: ")):
            raise Fault(line)
        try:
            add_line(report, line)
        except (ValueError, IndexError):
            raise Fault(f"line {number} is none of a report: {line}") from None
    if not report.phase:
        raise Fault("the report has no line with a phase")
    return report
