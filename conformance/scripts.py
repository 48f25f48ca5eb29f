"""Scripts (docs/use/script.md): their commands, the messages and receives that these start, and the first fault of a text
that is no script."""
from __future__ import annotations

import functools
import re
from dataclasses import dataclass

MOST_BYTES, MOST_LINES, MOST_RANKS = 8_388_608, 65_536, 64
MOST_NAME, MOST_TAG, MOST_CONTEXT, MOST_LENGTH, MOST_BODIES = 65_535, 32_767, 255, 1_048_576, 67_108_864
NUMBER = re.compile(r"0|[1-9][0-9]{0,8}")

# What each argument of a command is.
ARGUMENTS = {
    "isend": ("name", "rank", "tag", "context", "body"),
    "issend": ("name", "rank", "tag", "context", "body"),
    "irecv": ("name", "rank or any", "tag or any", "context", "length"),
    "wait": ("name",),
    "test": ("name",),
    "probe": ("rank or any", "tag or any", "context"),
    "await": ("rank or any", "tag or any", "context"),
    "cancel": ("name",),
    "mprobe": ("name", "rank or any", "tag or any", "context"),
    "mrecv": ("name", "name", "length"),
}
STARTS = ("isend", "issend", "irecv", "mrecv")
MOST = {"name": MOST_NAME, "tag": MOST_TAG, "context": MOST_CONTEXT, "length": MOST_LENGTH}


class Fault(Exception):
    """The first fault of a text: its line and its kind."""

    def __init__(self, line: int, kind: str):
        super().__init__(f"fault script {line} {kind}")


@dataclass(frozen=True)
class Pattern:
    """What a receive or a look selects; None is any."""

    source: int | None
    tag: int | None
    context: int

    def selects(self, message: Message) -> bool:
        """MPI 3.1, 3.2.4: by source, tag and communicator."""
        return (self.context == message.context and self.source in (None, message.source)
                and self.tag in (None, message.tag))


@dataclass(frozen=True)
class Message:
    """What a send starts; its name is the line of the send."""

    line: int
    source: int
    to: int
    tag: int
    context: int
    body: str
    is_synchronous: bool

    @property
    def length(self) -> int:
        return int(self.body[1:]) if self.body[0] == "g" else len(self.body) // 2

    def seen(self) -> str:
        return f"seen {self.source} {self.tag} {self.length}"

    def received(self, capacity: int) -> str:
        if self.length > capacity:
            return f"cut {self.source} {self.tag} {self.length}"
        return f"got {self.source} {self.tag} {self.length} x{digits_of(self.body)}"


@dataclass(frozen=True)
class Command:
    line: int
    rank: int
    word: str
    arguments: tuple[str, ...]

    @property
    def pattern(self) -> Pattern:
        """What an irecv, a probe, an await or an mprobe selects."""
        source, tag, context = self.arguments[1:4] if self.word in ("irecv", "mprobe") else self.arguments
        return Pattern(pick_of(source), pick_of(tag), int(context))

    @property
    def capacity(self) -> int:
        return int(self.arguments[-1])

    def __str__(self) -> str:
        return " ".join([self.word, *self.arguments])


@dataclass(frozen=True)
class Script:
    text: str
    ranks: int
    of_rank: tuple[tuple[Command, ...], ...]
    at_line: dict[int, Command]
    messages: dict[int, Message]
    patterns: dict[int, Pattern]

    @property
    def lines(self) -> int:
        return len(self.at_line)


def pick_of(word: str) -> int | None:
    return None if word == "any" else int(word)


@functools.lru_cache(maxsize=64)
def digits_of(body: str) -> str:
    if body[0] == "x":
        return body[1:]
    cycle = bytes((31 * k + 7) % 251 for k in range(251))
    length = int(body[1:])
    return (cycle * (length // 251 + 1))[:length].hex()


def is_number(word: str, most: int) -> bool:
    return NUMBER.fullmatch(word) is not None and int(word) <= most


def is_body(word: str) -> bool:
    if word[:1] == "g":
        return is_number(word[1:], MOST_LENGTH)
    return re.fullmatch(r"x([0-9a-f]{2})*", word) is not None and len(word) // 2 <= MOST_LENGTH


def fault_of(number: int, line: bytes, ranks: int) -> str | None:
    """The kind of the fault of a line by itself, or None; `ranks` is what the first line said."""
    if any(byte < 32 or byte > 126 for byte in line):
        return "notascii"
    if number > MOST_LINES:
        return "lines"
    words = line.decode().split(" ")
    if number == 1:
        is_first = len(words) == 2 and words[0] == "ranks" and is_number(words[1], MOST_RANKS) and words[1] != "0"
        return None if is_first else "first"
    if not words[0].endswith(":") or not is_number(words[0][:-1], ranks - 1):
        return "rank"
    kinds = ARGUMENTS.get(words[1] if len(words) > 1 else "")
    if kinds is None:
        return "command"
    return fault_of_arguments(kinds, words[2:], ranks)


def fault_of_arguments(kinds: tuple[str, ...], words: list[str], ranks: int) -> str | None:
    if len(words) != len(kinds):
        return "count"
    for kind, word in zip(kinds, words):
        plain = kind.removesuffix(" or any")
        if kind != "body" and not (kind != plain and word == "any") and not is_number(word, MOST.get(plain, ranks - 1)):
            return "number"
    if kinds[-1] == "body" and not is_body(words[-1]):
        return "body"
    return None


def message_of(command: Command) -> Message:
    _, to, tag, context, body = command.arguments
    return Message(command.line, command.rank, int(to), int(tag), int(context), body, command.word == "issend")


def read(data: bytes) -> Script:
    """The script that the bytes spell; raises Fault where they spell none."""
    if len(data) > MOST_BYTES:
        raise Fault(0, "toolong")
    lines = data.split(b"\n")
    if not lines[-1] and len(lines) > 1:
        lines.pop()
    ranks, bodies, commands = 0, 0, []
    for number, line in enumerate(lines, 1):
        kind = fault_of(number, line, ranks)
        if kind:
            raise Fault(number, kind)
        first, *words = line.decode().split(" ")
        if number == 1:
            ranks = int(words[0])
            continue
        command = Command(number, int(first[:-1]), words[0], tuple(words[1:]))
        commands.append(command)
        if command.word in ("isend", "issend"):
            bodies += message_of(command).length
        if bodies > MOST_BODIES:
            raise Fault(number, "bodytotal")
    return made_of(b"\n".join(lines).decode() + "\n", ranks, commands)


def made_of(text: str, ranks: int, commands: list[Command]) -> Script:
    of_rank = [[] for _ in range(ranks)]
    for it in commands:
        of_rank[it.rank].append(it)
    messages = {it.line: message_of(it) for it in commands if it.word in ("isend", "issend")}
    patterns = {it.line: it.pattern for it in commands if it.word in ("irecv", "probe", "await", "mprobe")}
    return Script(text, ranks, tuple(map(tuple, of_rank)), {it.line: it for it in commands}, messages, patterns)
