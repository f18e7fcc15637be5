"""An update as a drawing: phases above, a lane for each switch, and the packets that came in (SVG)."""

from __future__ import annotations

from html import escape
from itertools import groupby
from typing import Iterator, Tuple

from documents import Document
from journal import Journal
from phases import show_phase
from reports import Arrival, Report

LEFT, TOP, LANE, WIDEST = 90, 64, 26, 1500
COLOURS = {
    "opening": "#eeeeee", "idle": "#ffffff", "install": "#fff2cc", "flip": "#f8cecc", "drain": "#dae8fc", "clean": "#d5e8d4",
    "tidy": "#d5e8d4", "sweep": "#e1d5e7",
}  # fmt: skip
# The mark of an event in the lane of its switch, and its colour.
MARKS = {
    "send": ("v", "#1f77b4"), "take": ("|", "#1f77b4"), "apply": ("o", "#d62728"), "reply": ("|", "#2ca02c"),
    "heard": ("^", "#2ca02c"), "lost": ("x", "#000000"), "rejoin": ("+", "#000000"),
}  # fmt: skip
LEGEND = "v send  | take  o apply (red)  | reply (green)  ^ heard  x lost  + rejoin"
POLICY_COLOURS = ("#7f7f7f", "#1f77b4", "#d62728", "#2ca02c", "#9467bd", "#ff7f0e", "#8c564b")


class Drawing:
    def __init__(self, document: Document, report: Report) -> None:
        self.document, self.report = document, report
        self.moments = Journal(document, report).follow()
        self.step = max(1.0, min(9.0, WIDEST / max(1, len(self.moments))))
        self.lanes = {switch: number for number, switch in enumerate(document.switches)}
        self.width = LEFT + self.step * len(self.moments) + 30
        self.bottom = TOP + LANE * (len(self.lanes) + 1)

    def x(self, event: int) -> float:
        """Where an event begins, counted from 0."""
        return round(LEFT + self.step * event, 1)

    def spans(self) -> Iterator[Tuple[int, int, Tuple]]:
        """The phases, from event to event."""
        place = 0
        for phase, group in groupby(self.moments, key=lambda moment: moment.phase):
            count = len(list(group))
            yield place, place + count, phase
            place += count

    # ---- parts

    def phases(self) -> Iterator[str]:
        for start, end, phase in self.spans():
            width = self.x(end) - self.x(start)
            yield rectangle(self.x(start), TOP - 22, width, 20, COLOURS[phase[0]], show_phase(phase))
            if width > 6 * len(show_phase(phase)):
                yield text(self.x(start) + 3, TOP - 8, show_phase(phase))

    def lane_of(self, switch: int) -> Iterator[str]:
        """A lane: coloured by the phase, darker once the switch has answered for it."""
        y = TOP + LANE * self.lanes[switch]
        yield text(8, y + 17, f"switch {switch}")
        place = 0
        for (phase, is_done), group in groupby(self.moments, key=lambda moment: (moment.phase, switch in moment.done)):
            count = len(list(group))
            name = show_phase(phase) + (", answered" if is_done else "")
            opacity = 1 if is_done or phase[0] in ("idle", "drain") else 0.45
            yield rectangle(self.x(place), y + 2, self.x(place + count) - self.x(place), LANE - 4, COLOURS[phase[0]], name, opacity)
            place += count

    def marks(self) -> Iterator[str]:
        for number, moment in enumerate(self.moments):
            word, *rest = moment.words
            if word in MARKS:
                sign, colour = MARKS[word]
                y = TOP + LANE * self.lanes[int(rest[0])] + 17
                title = f"{number + 1}: {' '.join(moment.words)}" + (f" ({moment.sent[0]})" if moment.sent else "")
                yield text(self.x(number), y, sign, colour, title)

    def packets(self) -> Iterator[str]:
        """The lane of packets: a dot where one came in, in the colours of its policies, and a line for each hop."""
        y = TOP + LANE * len(self.lanes)
        yield text(8, y + 17, "packets")
        arrivals = enumerate(self.report.arrivals, 1)
        for event, moment in enumerate(self.moments):
            if moment.words[0] == "arrive":
                number, arrival = next(arrivals)
                yield dot(self.x(event), y + 13, arrival, f"{event + 1}: packet {number}, {show_entry(arrival)}")
                yield text(self.x(event) - 3, y + 34, str(number))
            elif moment.words[0] in ("hop", "drained", "begin", "stuck"):
                yield text(self.x(event), y + 17, moment.words[0][0], "#555555", f"{event + 1}: {' '.join(moment.words)}")

    def words(self) -> Iterator[str]:
        """What the report says at the end, below the lanes."""
        lines = [f"phase {self.report.phase}" + (f", halted {self.report.halt}" if self.report.halt else "")]
        for number, arrival in enumerate(self.report.arrivals, 1):
            ways = [f"done {way}" for way in arrival.done] + [f"open {way}" for way in arrival.open]
            lines.append(f"packet {number} at {arrival.place[0]}:{arrival.place[1]}, {show_entry(arrival)}: " + (", ".join(ways) or "dropped"))
        for number, line in enumerate(lines[:41]):
            yield text(8, self.bottom + 40 + 16 * number, line if number < 40 else f".. and {len(lines) - 40} packets more")

    def svg(self) -> str:
        height = self.bottom + 60 + 16 * min(40, len(self.report.arrivals) + 1)
        longest = max((len(line) for line in self.words()), default=0)
        lines = [
            f'<svg xmlns="http://www.w3.org/2000/svg" width="{max(self.width, 560, 7 * min(longest, 200)):.0f}" height="{height}">',
            '<style>text { font: 11px "DejaVu Sans Mono", monospace; }</style>',
            '<rect width="100%" height="100%" fill="white"/>',
            text(8, 18, f"{len(self.moments)} events, {len(self.report.arrivals)} packets"),
            text(8, 34, LEGEND + "  h hop  b begin  d drained", "#555555"),
            *self.phases(),
        ]
        for switch in self.lanes:
            lines += self.lane_of(switch)
        return "\n".join([*lines, *self.marks(), *self.packets(), *self.words(), "</svg>", ""])


def show_entry(arrival: Arrival) -> str:
    return "policy " + " or ".join(map(str, arrival.entry))


def rectangle(x: float, y: float, width: float, height: float, colour: str, title: str, opacity: float = 1) -> str:
    shape = f'<rect x="{x}" y="{y}" width="{width:.1f}" height="{height}" fill="{colour}" fill-opacity="{opacity}" stroke="#bbbbbb"'
    return f'{shape} stroke-width="0.5"><title>{escape(title)}</title></rect>'


def text(x: float, y: float, words: str, colour: str = "#000000", title: str = "") -> str:
    note = f"<title>{escape(title)}</title>" if title else ""
    return f'<text x="{x}" y="{y}" fill="{colour}">{escape(words)}{note}</text>'


def dot(x: float, y: float, arrival: Arrival, title: str) -> str:
    """A dot in the colour of the policy that the packet met, or in two halves in a flip."""
    first, last = (POLICY_COLOURS[number % len(POLICY_COLOURS)] for number in (arrival.entry[0], arrival.entry[-1]))
    return f'<circle cx="{x}" cy="{y}" r="4.5" fill="{first}" stroke="{last}" stroke-width="2"><title>{escape(title)}</title></circle>'


def draw_report(document: Document, report: Report) -> str:
    """The drawing of a report of a document."""
    return Drawing(document, report).svg()
