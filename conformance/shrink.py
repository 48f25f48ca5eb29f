"""Takes lines out of a script as long as it still shows the same."""
from __future__ import annotations

import re
import time
from collections.abc import Callable, Iterator

Shows = Callable[[str], bool]


def without_lines(text: str, shows: Shows, end: float) -> str:
    """By halves, quarters and so on down to single lines (Zeller's delta debugging), until no line can be left out."""
    head, *lines = text.splitlines()
    size = max(1, len(lines) // 2)
    while size and time.monotonic() < end:
        at, before = 0, len(lines)
        while at < len(lines) and time.monotonic() < end:
            rest = lines[:at] + lines[at + size:]
            if rest and shows("\n".join([head, *rest]) + "\n"):
                lines = rest
            else:
                at += size
        if size > 1 or len(lines) == before:
            size //= 2
    return "\n".join([head, *lines]) + "\n"


def ranks_named(lines: list[str]) -> set[int]:
    """The ranks that run a command, send or are sent to."""
    named = set()
    for line in lines:
        rank, word, *arguments = line.split(" ")
        named.add(int(rank[:-1]))
        at = {"isend": 1, "issend": 1, "irecv": 1, "mprobe": 1, "probe": 0, "await": 0}.get(word)
        if at is not None and arguments[at] != "any":
            named.add(int(arguments[at]))
    return named


def renumbered(text: str) -> str:
    """The ranks that are left, from 0."""
    _, *lines = text.splitlines()
    number = {rank: str(at) for at, rank in enumerate(sorted(ranks_named(lines)))}
    made = [f"ranks {len(number)}"]
    for line in lines:
        words = line.split(" ")
        at = {"isend": 3, "issend": 3, "irecv": 3, "mprobe": 3, "probe": 2, "await": 2}.get(words[1])
        words[0] = number[int(words[0][:-1])] + ":"
        if at is not None and words[at] != "any":
            words[at] = number[int(words[at])]
        made.append(" ".join(words))
    return "\n".join(made) + "\n"


def shorter_bodies(text: str) -> Iterator[str]:
    """The same script with one body a half as long."""
    lines = text.splitlines()
    for at, line in enumerate(lines):
        match = re.fullmatch(r"(.* g)(\d+)", line)
        if match and int(match[2]) > 1:
            yield "\n".join([*lines[:at], f"{match[1]}{int(match[2]) // 2}", *lines[at + 1:]]) + "\n"


def least(text: str, shows: Shows, seconds: float) -> str:
    """The least script that was found to show it within so many seconds."""
    end = time.monotonic() + seconds
    text = without_lines(text, shows, end)
    made = renumbered(text)
    if made != text and shows(made):
        text = made
    while time.monotonic() < end:
        shorter = next((it for it in shorter_bodies(text) if shows(it)), None)
        if shorter is None:
            break
        text = shorter
    return text
