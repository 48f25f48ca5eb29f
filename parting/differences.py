"""What parts two runs of a script: the two reports that are nearest to each other, the beginning of each rank's history
that both runs have, the lines that came to something else, and which of them decide."""
from __future__ import annotations

from dataclasses import dataclass

from runs import Event, Met, Place, Run

# Of each kind, how many reports are compared.
MOST_COMPARED = 500
NOT_REACHED = Met("is not reached")


@dataclass(frozen=True)
class Difference:
    """A line that came to something else in the run that ends than in the one that hangs."""

    line: int
    ends: Met
    hangs: Met

    @property
    def is_choice(self) -> bool:
        return self.ends.place is not None and self.hangs.place is not None


def nearest(reports: list[list[str]]) -> tuple[int | None, int, bool]:
    """Of all pairs of a report that is done and one that is stuck, the first with the fewest answers that differ, by their
    numbers; and whether some were not compared."""
    done = [it for it, report in enumerate(reports, 1) if report[-1] == "done"]
    stuck = [it for it, report in enumerate(reports, 1) if report[-1] == "stuck"]
    if not done:
        return None, stuck[0], False
    answers = {it: frozenset(reports[it - 1][:-2]) for it in [*done[:MOST_COMPARED], *stuck[:MOST_COMPARED]]}
    pairs = ((len(answers[one] ^ answers[other]), one, other)
             for one in done[:MOST_COMPARED] for other in stuck[:MOST_COMPARED])
    _, one, other = min(pairs)
    return one, other, max(len(done), len(stuck)) > MOST_COMPARED


def common(one: Run, other: Run) -> dict[int, int]:
    """With how many equal events the histories of each rank begin; their stamps may differ."""
    return {rank: equal_events(events, other.histories.get(rank, [])) for rank, events in one.histories.items()}


def equal_events(events: list[Event], others: list[Event]) -> int:
    pairs = enumerate(zip(events, others))
    return next((at for at, (it, its) in pairs if it.words != its.words), min(len(events), len(others)))


def differences(ends: Run, hangs: Run) -> list[Difference]:
    lines = sorted({*ends.met, *hangs.met})
    found = [Difference(it, ends.met.get(it, NOT_REACHED), hangs.met.get(it, NOT_REACHED)) for it in lines]
    return [it for it in found if it.ends.words != it.hangs.words]


class Clocks:
    """How many events of each rank happened before each event (Lamport 1978), by the messages, their requests to be
    withdrawn with the answers, and the receives that synchronous and long sends wait for."""

    def __init__(self, run: Run, places: set[Place]):
        self.run, self.kept = run, {}
        self.now: dict[int, dict[int, int]] = {rank: {} for rank in run.histories}
        self.sent: dict[tuple, dict[int, int]] = {}
        self.taken = {place: message for message, place in run.taken.items()}
        steps = [(event.stamp, rank, at) for rank, history in run.histories.items() for at, event in enumerate(history)]
        for _, rank, at in sorted(steps):
            self.step((rank, at))
            if (rank, at) in places:
                self.kept[rank, at] = dict(self.now[rank])

    def step(self, place: Place) -> None:
        event = self.run.event(place)
        clock = self.now[place[0]]
        for it in self.causes(event):
            for rank, count in self.sent.get(it, {}).items():
                clock[rank] = max(clock.get(rank, 0), count)
        clock[place[0]] = place[1] + 1
        if event.what in ("send", "recall"):
            self.sent[event.what, event.sent()] = dict(clock)
        elif event.what == "withdraw":
            self.sent[event.what, event.received()] = dict(clock)
        if place in self.taken:
            self.sent["take", self.taken[place]] = dict(clock)

    @staticmethod
    def causes(event: Event) -> list[tuple]:
        if event.what == "arrive":
            return [("send", event.received())]
        if event.what == "withdraw":
            return [("recall", event.received())]
        if event.what == "undone":
            return [("withdraw", event.sent())]
        return [("take", event.sent())] if event.what == "out" else []

    def is_before(self, one: Place, other: Place) -> bool:
        """Whether an event of another rank happened before an event."""
        return one[0] != other[0] and self.kept[other].get(one[0], 0) > one[1]


def decisive(found: list[Difference], ends: Run, hangs: Run) -> list[Difference]:
    """The first choice of each rank that came out otherwise, without those that follow from another in both runs."""
    first: dict[int, Difference] = {}
    for it in sorted((it for it in found if it.is_choice), key=lambda it: it.hangs.place):
        first.setdefault(it.hangs.place[0], it)
    choices = sorted(first.values(), key=lambda it: it.line)
    in_ends = Clocks(ends, {it.ends.place for it in choices})
    in_hangs = Clocks(hangs, {it.hangs.place for it in choices})

    def follows(it: Difference, other: Difference) -> bool:
        return (in_ends.is_before(other.ends.place, it.ends.place)
                and in_hangs.is_before(other.hangs.place, it.hangs.place))
    return [it for it in choices if not any(follows(it, other) for other in choices)]
