"""A run by its trace (docs/use/script.md): the history of each rank, and what each command of the script came to there."""
from __future__ import annotations

from dataclasses import dataclass, field

# A message: its sender, its receiver, and how many went before it between the two.
Message = tuple[int, int, int]
# An event: the rank, and how many events of the rank went before it.
Place = tuple[int, int]
MOST_SHOWN = 48
# What a cancel of a receive says (MPI 3.1, 3.8.4).
IN_TIME = {"done": "comes in time", "late": "comes too late"}


@dataclass(frozen=True)
class Event:
    rank: int
    stamp: int
    words: tuple[str, ...]

    @property
    def what(self) -> str:
        return self.words[0]

    @property
    def line(self) -> int:
        """The line of the command that a send, a post, a claim or a match comes from."""
        return int(self.words[-1])

    def sent(self) -> Message:
        """The message of an event that begins with its receiver, or asks for its withdrawal."""
        return self.rank, int(self.words[1]), int(self.words[2])

    def received(self, at: int = 1) -> Message:
        """The message of an event at its receiver."""
        return int(self.words[at]), self.rank, int(self.words[at + 1])


@dataclass(frozen=True)
class Met:
    """What a command came to; where that was decided, if the order of events could have decided otherwise."""

    words: str
    place: Place | None = None


@dataclass
class Run:
    """The histories of the ranks, the lines where commands wait for ever, and what each line came to."""

    number: int
    trace: str
    histories: dict[int, list[Event]]
    waits: list[int]
    met: dict[int, Met] = field(default_factory=dict)
    lines: dict[Message, int] = field(default_factory=dict)
    taken: dict[Message, Place] = field(default_factory=dict)

    def event(self, place: Place) -> Event:
        return self.histories[place[0]][place[1]]


def shortened(words: str) -> str:
    return words if len(words) <= MOST_SHOWN else f"{words[:MOST_SHOWN]}.."


def selects(pattern: tuple[str, ...], event: Event) -> bool:
    """Whether a source, a tag and a context select a message that arrived (MPI 3.1, 3.2.4)."""
    source, _, tag, context = event.words[1:5]
    return pattern[0] in ("any", source) and pattern[1] in ("any", tag) and pattern[2] == context


def pattern_of(command: list[str]) -> tuple[str, ...]:
    """What a probe selects, by the words of its line."""
    return tuple(command[3:6] if command[1] == "mprobe" else command[2:5])


class Replay:
    """Goes through the history of a rank by MPI's matching (MPI 3.1, 3.5): which receive, claim or withdrawal has which
    message."""

    def __init__(self, run: Run, commands: list[list[str]], rank: int):
        self.run, self.commands, self.rank = run, commands, rank
        self.posted: list[Event] = []
        self.unexpected: list[Event] = []
        self.recalled: Message | None = None
        self.recalls: dict[Message, int] = {}

    def say(self, line: int, words: str, place: Place | None = None) -> None:
        self.run.met[line] = Met(words, place)

    def message(self, message: Message) -> str:
        return f"the message of line {self.run.lines[message]} (rank {message[0]})"

    def take(self, place: Place, post: Event, arrival: Event) -> None:
        self.run.taken[arrival.received()] = place
        self.say(post.line, f"takes {self.message(arrival.received())}", place)

    def drop(self, message: Message) -> None:
        self.unexpected = [it for it in self.unexpected if it.received() != message]

    def post(self, place: Place, event: Event) -> None:
        fitting = next((it for it in self.unexpected if selects(event.words[2:5], it)), None)
        if fitting is None:
            self.posted.append(event)
            self.say(event.line, "takes no message")
        else:
            self.drop(fitting.received())
            self.take(place, event, fitting)

    def arrive(self, place: Place, event: Event) -> None:
        fitting = next((it for it in self.posted if selects(it.words[2:5], event)), None)
        if fitting is None:
            self.unexpected.append(event)
        else:
            self.posted.remove(fitting)
            self.take(place, fitting, event)

    def cancel(self, _place: Place, event: Event) -> None:
        """A receive that is cancelled in time takes no message (MPI 3.1, 3.8.4)."""
        number, how = event.words[1:]
        for it in [it for it in self.posted if how == "done" and it.words[1] == number]:
            self.posted.remove(it)
            self.say(it.line, "is cancelled")

    def claim(self, place: Place, event: Event) -> None:
        """A matched probe takes its message out of matching (MPI 3.1, 3.8.2)."""
        self.drop(event.received())
        self.say(event.line, f"claims {self.message(event.received())}", place)

    def match(self, place: Place, event: Event) -> None:
        self.run.taken[event.received(2)] = place
        self.say(event.line, f"receives {self.message(event.received(2))}", place)

    def recall(self, _place: Place, event: Event) -> None:
        self.recalled = event.sent()

    def withdraw(self, _place: Place, event: Event) -> None:
        if event.words[-1] == "done":
            self.drop(event.received())

    def seen(self, command: list[str], answer: list[str]) -> str:
        """Which message a probe shows: the oldest that it selects and nothing took."""
        fitting = next((it for it in self.unexpected if selects(pattern_of(command), it)), None)
        return f"sees {self.message(fitting.received())}" if fitting else f"answers {' '.join(answer)}"

    def ran(self, place: Place, event: Event) -> None:
        line, answer = int(event.words[1]), list(event.words[2:])
        command = self.commands[line]
        if answer == ["started"]:
            self.run.met.setdefault(line, Met("starts"))
        elif answer == ["asked"] and self.recalled:
            self.recalls[self.recalled], self.recalled = line, None
            self.say(line, "asks, and has no answer")
        elif answer[0] == "seen" and command[1] != "mprobe":
            self.say(line, self.seen(command, answer), place)
        elif command[1] == "cancel" and answer[0] in IN_TIME:
            self.say(line, IN_TIME[answer[0]], place)
        elif answer[0] != "seen":
            is_wait = command[1] == "wait"
            self.say(line, f"answers {shortened(' '.join(answer))}", None if is_wait else place)

    def run_all(self) -> dict[Message, int]:
        """Goes through all events; the cancels of sends, by the messages that they ask back."""
        steps = {"post": self.post, "arrive": self.arrive, "cancel": self.cancel, "claim": self.claim, "match": self.match,
                 "recall": self.recall, "withdraw": self.withdraw, "ran": self.ran}
        for at, event in enumerate(self.run.histories[self.rank]):
            step = steps.get(event.what)
            if step:
                step((self.rank, at), event)
        return self.recalls


def histories_of(trace: str) -> dict[int, list[Event]]:
    histories: dict[int, list[Event]] = {}
    for line in trace.splitlines():
        if line.startswith("@ "):
            _, rank, stamp, *words = line.split(" ")
            histories.setdefault(int(rank), []).append(Event(int(rank), int(stamp), tuple(words)))
    return histories


def withdrawals(run: Run, recalls: dict[Message, int]) -> None:
    """A cancel of a send is decided at its receiver (MPI 3.1, 3.8.4)."""
    for rank, history in run.histories.items():
        for at, event in enumerate(history):
            if event.what == "withdraw":
                how = "withdraws its message" if event.words[-1] == "done" else "comes too late"
                run.met[recalls[event.received()]] = Met(how, (rank, at))


def run_of(number: int, trace: str, commands: list[list[str]]) -> Run:
    """The run that a trace tells of a script, given by the words of its lines (the first at 1)."""
    lines = trace.splitlines()
    waits = [int(it.split(" ")[1]) for it in lines if it[0].isdigit() and it.endswith(" waits")]
    run = Run(number, trace, histories_of(trace), waits)
    for history in run.histories.values():
        run.lines.update({it.sent(): it.line for it in history if it.what == "send"})
    recalls: dict[Message, int] = {}
    for rank in run.histories:
        recalls.update(Replay(run, commands, rank).run_all())
    withdrawals(run, recalls)
    run.met.update({line: Met("waits for ever") for line in waits})
    return run
