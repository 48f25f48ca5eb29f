"""Where each line of a recorded script stands in the sources of its program."""
from __future__ import annotations

import os
import re
import shutil
import subprocess

from calls import Calls

UNKNOWN = "?"


def source_lines(by_object: dict[str, set[str]]) -> dict[str, str]:
    """FILE:LINE of each OBJECT+OFFSET, as addr2line has them."""
    places = {}
    if shutil.which("addr2line") is None:
        return places
    for name, offsets in by_object.items():
        asked = sorted(offsets)
        ran = subprocess.run(["addr2line", "-e", name, *asked], stdin=subprocess.DEVNULL, capture_output=True, check=False)
        for offset, said in zip(asked, ran.stdout.decode(errors="replace").splitlines()):
            place = said.partition(" (discriminator")[0]
            if not place.startswith("??") and not place.endswith((":0", ":?")):
                places[f"{name}+{offset}"] = os.path.basename(place)
    return places


def places_of(calls: Calls) -> str:
    """A line `LINE FILE:LINE` for each command; `?` for a program without debugging information (-g)."""
    by_object: dict[str, set[str]] = {}
    for it in calls.lines:
        name, _, offset = it.place.rpartition("+")
        if name:
            by_object.setdefault(name, set()).add(offset)
    known = source_lines(by_object)
    return "".join(f"{number} {known.get(it.place, UNKNOWN)}\n" for number, it in enumerate(calls.lines, 2))


def with_places(said: str, script: str, places: str) -> str:
    """What ./why said, each line of the script with its place; and the least script's commands."""
    where = dict(it.split(" ", 1) for it in places.splitlines())
    commands = dict(enumerate(script.splitlines(), 1))

    def placed(found: re.Match[str]) -> str:
        return re.sub(r"\d+", lambda it: f"{it[0]} ({where.get(it[0], UNKNOWN)})", found[0])

    lines = []
    for line in said.splitlines():
        if line.startswith(("lines ", "open ")):
            lines.append(line)
            lines += [f"    line {it} ({where.get(it, UNKNOWN)}) {commands[int(it)]}" for it in line.split()[1:]]
        else:
            lines.append(re.sub(r"\blines?( \d+)+", placed, line))
    return "".join(f"{it}\n" for it in lines)
