"""A journal followed event by event, without the rows: sessions, channels, acknowledged batches and phases."""

from __future__ import annotations

import copy
from dataclasses import dataclass
from typing import Dict, List, Optional, Tuple

from documents import Document
from meaning import Fault
from phases import BATCHES, Phase, following, show_phase
from reports import Report
from sessions import Session, barriers

# What the controller does or hears. Nothing of it can happen once the updates have halted.
CONTROL = ("begin", "send", "heard", "drained", "lost", "rejoin", "stuck", "foreign")


@dataclass
class Moment:
    """An event, and what it stands for."""

    words: List[str]
    phase: Phase
    halted: bool
    sent: Optional[Tuple[str, int, int]] = None  # kind, place in the batch, xid
    heard: Optional[str] = None
    done: Tuple[int, ...] = ()  # the switches whose answer for the phase was heard before
    leaving: Optional[int] = None  # the policy of which it is waited for that no packet has its stamp


class Journal:
    """The state that the events so far led to."""

    def __init__(self, document: Document, report: Report) -> None:
        self.document, self.report = document, report
        self.events = [event.split() for event in report.events]
        if any(words[0] in ("send", "heard") and len(words) == 3 or words[0] == "garbled" for words in self.events):
            raise Fault("this is the report of a drive, which has no switches of a model: `ovs-ofctl ofp-print` reads its messages")
        self.barriers = barriers(self.events, document.rejoins)
        self.sessions = {switch: Session() for switch in document.switches}
        self.phase: Phase = ("opening",)
        self.draining: List[int] = []  # policies, the oldest first, if drains overlap
        self.losses = 0
        self.halt: Optional[str] = None
        self.rounds: Dict[int, int] = {}  # of each update
        self.place = 0
        control = [place for place, words in enumerate(self.events) if words[0] in CONTROL]
        self.halting = control[-1] if report.halt is not None and control else None

    def fail(self, why: str) -> None:
        raise Fault(f"event {self.place + 1} ({' '.join(self.events[self.place])}): {why}")

    def must(self, holds: bool, why: str) -> None:
        if not holds:
            self.fail(why)

    def follow(self) -> List[Moment]:
        """Each event with the phase that it found. The phase at the end has to be that of the report."""
        moments = []
        for self.place in range(len(self.events)):
            moments.append(self.step())
        self.check_end()
        return moments

    def step(self) -> Moment:
        """What the event at the place does."""
        words = self.events[self.place]
        done = tuple(switch for switch, session in self.sessions.items() if session.is_done)
        moment = Moment(words, self.phase, self.halt is not None, done=done, leaving=self.leaving())
        if words[0] in CONTROL:
            self.must(self.halt is None, "the updates have halted")
        step = getattr(self, "on_" + words[0], None)
        if step is not None:
            step(moment, *words[1:])
        return moment

    def check_end(self) -> None:
        printed = self.report.phase_words
        if self.phase != printed:
            raise Fault(f"the events lead to phase {show_phase(self.phase)}, and the report says {self.report.phase}")
        if [self.document.stamp(policy) for policy in self.draining] != self.report.draining:
            raise Fault("the report has other stamps that drain than the events lead to")
        if self.report.halt is not None and self.halt is None:
            raise Fault(f"no event halts, and the report says halted {self.report.halt}")

    # ---- the events

    def session(self, switch: str) -> Session:
        self.must(int(switch) in self.sessions, "no such switch")
        return self.sessions[int(switch)]

    def on_begin(self, moment: Moment) -> None:
        self.must(self.phase[0] == "idle", f"an update begins in phase {show_phase(self.phase)}")
        self.must(self.phase[1] < len(self.document.policies), "there is no policy left")
        self.must(not self.document.overlap or self.has_stamp(), "each stamp is current or drains")
        self.enter(("install", self.phase[1] + 1))

    def on_send(self, moment: Moment, switch: str) -> None:
        session = self.session(switch)
        self.must(not session.is_away, "the switch is away")
        session.sent += 1
        session.session_sent += 1
        session.to_switch.append(session.sent)
        if session.session_sent == 1:
            moment.sent = ("hello", 0, session.sent)
        elif session.session_sent == 2:
            self.must("hello" in session.heard, "the switch was not greeted")
            moment.sent = ("features request", 0, session.sent)
        else:
            self.send_of_batch(moment, session, int(switch))

    def send_of_batch(self, moment: Moment, session: Session, switch: int) -> None:
        self.must("features reply" in session.heard, "the switch has not told its number")
        self.must(self.phase[0] in BATCHES, f"phase {show_phase(self.phase)} sends nothing")
        self.must(not session.is_done and not session.has_barrier, "the batch has no further message for the switch")
        is_barrier = (switch, session.sent) in self.barriers
        moment.sent = ("barrier request" if is_barrier else "message", session.batch_sent, session.sent)
        session.batch_sent += 1
        session.has_barrier = is_barrier

    def on_take(self, moment: Moment, switch: str) -> None:
        session = self.session(switch)
        self.must(session.awaited is None, "a barrier waits for its answer")
        self.must(bool(session.to_switch), "no message is in the channel to the switch")
        xid = session.to_switch.popleft()
        first = session.sent - session.session_sent
        if xid == first + 2:
            session.to_controller.append("features reply")
        elif (int(switch), xid) in self.barriers:
            session.awaited = xid
        elif xid > first + 2:
            session.pending += 1

    def on_apply(self, moment: Moment, switch: str, place: str) -> None:
        session = self.session(switch)
        self.must(int(place) < session.pending, "no such flow mod is pending")
        session.pending -= 1

    def on_reply(self, moment: Moment, switch: str) -> None:
        session = self.session(switch)
        self.must(session.awaited is not None and session.pending == 0, "the switch has nothing to answer")
        session.awaited = None
        session.to_controller.append("barrier reply")

    def on_heard(self, moment: Moment, switch: str) -> None:
        session = self.session(switch)
        self.must(not session.is_away, "the switch is away")
        if self.place == self.halting:
            cause = (self.report.halt or "").split()
            self.must(cause[:2] == ["switch", switch] and cause[2] in ("error", "incompatible", "identity"), "it halts nothing")
            self.halt = moment.heard = "error"
            return
        self.must(bool(session.to_controller), "no message is in the channel from the switch")
        moment.heard = session.to_controller.popleft()
        session.heard.add(moment.heard)
        if moment.heard == "barrier reply":
            session.is_done = True
            if all(each.is_done for each in self.sessions.values()):
                self.enter(self.following())

    def on_drained(self, moment: Moment, stamp: str) -> None:
        policy = self.leaving()
        self.must(policy is not None, f"it is said in phase {show_phase(self.phase)}, and nothing is waited for")
        self.must(int(stamp) == self.document.stamp(policy or 0), "it is not the stamp that is waited for")
        self.enter(("sweep", self.phase[1], int(stamp)) if self.document.overlap else ("clean", self.phase[1]))

    def on_stuck(self, moment: Moment, place: str) -> None:
        self.must(self.leaving() is not None, f"it is told in phase {show_phase(self.phase)}, and nothing is waited for")
        self.must((self.report.halt or "").startswith("undrained "), "the report has no halt by it")
        self.halt = self.report.halt

    def on_foreign(self, moment: Moment, switch: str, side: str) -> None:
        self.must((self.report.halt or "").startswith(f"switch {switch} foreign {side} "), "the report has no halt by it")
        self.must(not self.session(switch).is_away, "the switch is away")
        self.halt = self.report.halt

    def on_lost(self, moment: Moment, switch: str) -> None:
        session = self.session(switch)
        self.must(not session.is_away, "the switch is away")
        self.losses += 1
        if self.losses > self.document.rejoins:
            self.must(self.report.halt == f"switch {switch} lost", "the report has no halt by it")
            self.halt = self.report.halt
            return
        session.lose()

    def on_rejoin(self, moment: Moment, switch: str) -> None:
        session = self.session(switch)
        self.must(session.is_away, "the switch is not away")
        session.begin_again()

    # ---- phases

    def leaving(self) -> Optional[int]:
        """The policy of which it is waited for that no packet has its stamp."""
        if self.phase[0] == "drain":
            return self.phase[1] - 1
        return self.draining[0] if self.phase[0] == "idle" and self.draining else None

    def has_stamp(self) -> bool:
        """Whether a stamp is neither current nor drains."""
        low, high = self.document.stamps
        live = self.draining + [policy for policy in self.phase[1:] if policy]
        return len({self.document.stamp(policy) for policy in live}) <= high - low

    def enter(self, phase: Phase) -> None:
        if self.phase[0] == "sweep":
            self.draining.pop(0)
        if self.document.overlap and self.phase[0] == "flip" != phase[0] and phase[1] > 1:
            self.draining.append(phase[1] - 1)
        self.phase = phase
        for session in self.sessions.values():
            session.enter_phase()

    def following(self) -> Phase:
        """The phase that comes once all switches have answered."""
        overlap = self.document.overlap
        phase = following(self.phase, self.phase[0] == "flip" and self.goes_on(), overlap)
        if self.phase[0] == "flip" and phase[0] != "flip":
            # both flips go through the list of the odd policy, so they have the same number of rounds
            _, policy, rounds = self.phase
            self.rounds[policy] = rounds
            same = policy % 2 == 1 or self.rounds[policy - 1] == rounds
            self.must(same, "the flip has other rounds than the one before it")
        return phase

    def goes_on(self) -> bool:
        """Whether one more round follows, by what comes next of all that tells it, and at the end by the report's phase."""
        end = following(self.phase, False, self.document.overlap)
        if end[0] == "tidy":
            return not self.fits(end)
        sent = {switch: session.session_sent for switch, session in self.sessions.items()}
        for word, *rest in self.events[self.place + 1 :]:
            if word in ("begin", "drained", "stuck"):
                return False
            if word == "rejoin":
                sent[int(rest[0])] = 0
            elif word == "send" and int(rest[0]) in sent:
                sent[int(rest[0])] += 1
                if sent[int(rest[0])] > 2:
                    return True
        return self.report.phase_words == ("flip", self.phase[1], self.phase[2] + 1)

    def fits(self, phase: Phase) -> bool:
        """Whether the events up to the next one that needs an idle phase, or up to the end, can happen from this phase on."""
        trial = copy.deepcopy(self)
        trial.enter(phase)
        try:
            for trial.place in range(self.place + 1, len(self.events)):
                if self.events[trial.place][0] in ("begin", "drained", "stuck"):
                    return trial.phase[0] == "idle"
                trial.step()
        except Fault:
            return False
        return trial.phase == self.report.phase_words
