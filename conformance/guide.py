"""What the names of requests and handles say of a script and of what its ranks told: how far each rank came, which start
each later command is of, and what each request ended with. Names are a rank's own (MPI 3.1, 3.7.1), so no message and no
other rank matters here."""
from __future__ import annotations

from dataclasses import dataclass, field

from scripts import STARTS, Command, Script

# The answers that names alone bring about.
BY_NAME = {
    "isend": ("busy",), "issend": ("busy",), "irecv": ("busy",), "mrecv": ("busy", "null"), "mprobe": ("busy",),
    "wait": ("null",), "test": ("null",), "cancel": ("null",), "probe": (), "await": (),
}
# What a request can end with at all, by its start.
ENDS = {
    "isend": ("sent", "cancelled"), "issend": ("sent", "cancelled"),
    "irecv": ("got", "cut", "cancelled"), "mrecv": ("got", "cut"),
}
# The answers of a rank, in the order of its commands: the line and the answer.
Told = list[tuple[int, str]]


class Contradiction(Exception):
    """No run tells this, whatever the messages do."""


@dataclass
class Guide:
    """The answer of each command that a rank ran, None of a start; what these answers are of; and the requests that ranks
    stand at, with a command that is not answered."""

    steps: list[list[tuple[Command, str | None]]]
    start_of: dict[int, int] = field(default_factory=dict)
    claim_of: dict[int, int] = field(default_factory=dict)
    ends: dict[int, str] = field(default_factory=dict)
    cancels: dict[int, list[str]] = field(default_factory=dict)
    standing: set[int] = field(default_factory=set)

    def never_receives(self, start: int) -> bool:
        """The receive is told to be cancelled."""
        return self.ends.get(start) == "cancelled" or "done" in self.cancels.get(start, ())

    def may_be_cancelled(self, start: int) -> bool:
        """Whether the request is cancelled is not told: MPI_Cancel says nothing (MPI 3.1, 3.8.4)."""
        return "asked" in self.cancels.get(start, ()) and start not in self.ends

    def is_withdrawn(self, start: int) -> bool:
        return self.ends.get(start) == "cancelled"


class RankGuide:
    """Goes through the commands of one rank."""

    def __init__(self, guide: Guide, told: Told):
        self.guide, self.told, self.at = guide, told, 0
        self.names: dict[str, Command] = {}
        self.handles: dict[str, int] = {}

    def answer(self, command: Command) -> str | None:
        """What the command told, or None where the rank has told nothing behind it."""
        if self.at == len(self.told):
            return None
        line, answer = self.told[self.at]
        if line != command.line:
            raise Contradiction(f"line {command.line} did not answer, and line {line} did")
        self.at += 1
        return answer

    def start(self, command: Command) -> str | None:
        """What a start has to answer: nothing where it starts a request."""
        if command.arguments[0] in self.names:
            return "busy"
        if command.word == "mrecv" and command.arguments[1] not in self.handles:
            return "null"
        return None

    def started(self, command: Command) -> None:
        self.names[command.arguments[0]] = command
        if command.word == "mrecv":
            self.guide.claim_of[command.line] = self.handles.pop(command.arguments[1])

    def run_start(self, command: Command) -> bool:
        """Whether the rank goes on behind this start."""
        due = self.start(command)
        if due is None:
            if self.at < len(self.told) and self.told[self.at][0] == command.line:
                raise Contradiction(f"line {command.line} starts a request")
            self.started(command)
        elif self.at == len(self.told):
            return False
        elif self.answer(command) != due:
            raise Contradiction(f"line {command.line} is {due}")
        self.guide.steps[command.rank].append((command, due))
        return True

    def run_other(self, command: Command) -> bool:
        answer = self.answer(command)
        if answer is None:
            return False
        if command.word in ("wait", "test", "cancel"):
            self.of_request(command, answer)
        elif command.word == "mprobe":
            self.of_handle(command, answer)
        self.guide.steps[command.rank].append((command, answer))
        return True

    def of_request(self, command: Command, answer: str) -> None:
        start = self.names.get(command.arguments[0])
        if (start is None) != (answer == "null"):
            raise Contradiction(f"line {command.line} is of a name that is {'free' if start is None else 'live'}")
        if start is None:
            return
        self.guide.start_of[command.line] = start.line
        if command.word == "cancel":
            self.guide.cancels.setdefault(start.line, []).append(answer)
        elif command.word == "wait" or answer != "no":
            self.end(command, start, answer)

    def end(self, command: Command, start: Command, answer: str) -> None:
        if answer.split(" ")[0] not in ENDS[start.word]:
            raise Contradiction(f"line {command.line} is of {start.word}")
        self.guide.ends[start.line] = answer
        del self.names[command.arguments[0]]

    def of_handle(self, command: Command, answer: str) -> None:
        handle = command.arguments[0]
        if (handle in self.handles) != (answer == "busy"):
            raise Contradiction(f"line {command.line} is of a handle that is {'live' if handle in self.handles else 'free'}")
        if answer.startswith("seen "):
            self.handles[handle] = command.line

    def stop(self, command: Command) -> None:
        """The rank stands at this command; what it is of is known."""
        if command.word in ("wait", "test", "cancel") and command.arguments[0] in self.names:
            self.guide.start_of[command.line] = self.names[command.arguments[0]].line
            self.guide.standing.add(self.guide.start_of[command.line])

    def run(self, commands: tuple[Command, ...]) -> None:
        """Stops at the first command that answers and has told nothing: there the rank stands."""
        for command in commands:
            goes_on = self.run_start if command.word in STARTS else self.run_other
            if not goes_on(command):
                self.stop(command)
                break
        if self.at < len(self.told):
            raise Contradiction(f"line {self.told[self.at][0]} did not run")


def guide_of(script: Script, told: list[Told]) -> Guide:
    """Raises Contradiction where the names alone forbid what was told."""
    guide = Guide([[] for _ in range(script.ranks)])
    for commands, answers in zip(script.of_rank, told):
        RankGuide(guide, answers).run(commands)
    return guide
