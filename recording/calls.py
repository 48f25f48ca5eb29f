"""The calls that the ranks of a program wrote down, as a script."""
from __future__ import annotations

import hashlib
import pathlib
import re
import subprocess
from dataclasses import dataclass

from libraries import NotBuilt, found

HERE = pathlib.Path(__file__).resolve().parent
OUT = HERE / "out"
SOURCES = ("calls.c", "collectives.h")
MOST_RANKS, MOST_LINES = 64, 65_536


class Refused(Exception):
    """What the ranks called is no script."""


@dataclass(frozen=True)
class Line:
    """A command of a rank, and the place in an object that called for it."""

    rank: int
    command: str
    place: str


@dataclass(frozen=True)
class Calls:
    ranks: int
    lines: list[Line]
    warnings: list[str]

    def script(self) -> str:
        return f"ranks {self.ranks}\n" + "".join(f"{it.rank}: {it.command}\n" for it in self.lines)


def library_of(words: list[str]) -> pathlib.Path:
    """What is loaded before the MPI library of this mpicc, built anew where the sources or the mpicc changed."""
    compiler = found(words[0])
    made_from = hashlib.sha256(repr((words, str(compiler), compiler.stat().st_mtime_ns)).encode())
    for name in SOURCES:
        made_from.update((HERE / name).read_bytes())
    library = OUT / f"calls-{made_from.hexdigest()[:16]}.so"
    if library.exists():
        return library
    OUT.mkdir(exist_ok=True)
    made = library.with_suffix(".made")
    ran = subprocess.run([*words, "-O1", "-std=gnu99", "-shared", "-fPIC", "-o", made, HERE / "calls.c", "-ldl"],
                         stdin=subprocess.DEVNULL, capture_output=True, check=False)
    if ran.returncode or not made.exists():
        said = ran.stderr.decode(errors="replace").strip().split("\n")
        raise NotBuilt(f"`{' '.join(words)}` does not build recording/calls.c: {said[0] or 'it says nothing'}")
    made.replace(library)
    return library


def read_calls(folder: pathlib.Path) -> Calls:
    """What the ranks wrote into this folder: the file `3.of.8` is that of rank 3."""
    files = {it.name.partition(".of.")[0]: it for it in folder.iterdir()}
    sizes = {int(it.name.partition(".of.")[2]) for it in files.values()}
    if not files:
        raise Refused("no rank called MPI_Init of this MPI library: see --cc")
    ranks = max(sizes)
    if ranks > MOST_RANKS:
        raise Refused(f"{ranks} ranks: a script has at most {MOST_RANKS}")
    lines, warnings = [], []
    for rank in range(ranks):
        text = files[str(rank)].read_text() if str(rank) in files else ""
        for line in text.splitlines():
            command, _, place = line.partition("\t")
            if command.startswith("! "):
                warnings.append(command[2:])
            else:
                lines.append(Line(rank, command, place))
    if len(lines) >= MOST_LINES:
        raise Refused(f"{len(lines)} commands: a script has at most {MOST_LINES - 1}")
    return Calls(ranks, lines, warnings)
