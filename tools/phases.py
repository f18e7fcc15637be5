"""The phases of updates, and which policies a packet may meet in them."""

from __future__ import annotations

from typing import List, Tuple

# The name of a phase and its numbers.
Phase = Tuple
BATCHES = ("opening", "install", "flip", "clean", "tidy", "sweep")


def entry(phase: Phase) -> List[int]:
    """The policies that a packet may meet: the one in force, and in a flip the next one too."""
    name, *numbers = phase
    if name == "opening":
        return [0]
    policy = numbers[0]
    return [policy - 1, policy] if name == "flip" else [policy - 1] if name == "install" else [policy]


def show_phase(phase: Phase) -> str:
    return " ".join(map(str, phase))


def following(phase: Phase, goes_on: bool, overlap: bool) -> Phase:
    """The phase that comes once all switches have answered; whether a flip goes on depends on its longest list."""
    name, *numbers = phase
    if name == "opening":
        return ("idle", 0)
    policy = numbers[0]
    if name == "install":
        return ("flip", policy, 1)
    if name in ("clean", "tidy", "sweep"):
        return ("idle", policy)
    if goes_on:
        return ("flip", policy, numbers[1] + 1)
    if policy == 1 or overlap and policy % 2 == 0:
        return ("idle", policy)
    return ("tidy" if overlap else "drain", policy)
