"""Draws a run of a script that ends beside one that hangs: lists the reports by `outcomes`, and has `chart` draw a trace of
each (docs/use/why.md)."""
from __future__ import annotations

import os
import pathlib
import re
import signal
import subprocess
import sys

sys.dont_write_bytecode = True
from differences import common, decisive, differences, nearest
from page import Ways, no_hang, page_of
from picture import Picture, picture_of
from runs import Run, run_of

TOP = pathlib.Path(__file__).resolve().parent.parent
USAGE = """usage: ways [--cells N] [--eager N] STATES <SCRIPT >PAGE
"""
# An option, or a number; `outcomes` says which numbers may stand there.
WORD = re.compile(r"--(cells|eager)(=\d+)?|\d+")
SAID = {4: "standard input can't be read", 6: "out of memory",
        10: "too many states, or too long reports: allow more states"}
# What `outcomes` ends with where it lists all reports.
LISTED = (0, 1)


class Failed(Exception):
    """No page can be made: the status, and why in a sentence."""

    def __init__(self, status: int, sentence: str):
        super().__init__(sentence)
        self.status = status


class WrongWords(Exception):
    """The words are not those of the usage."""


def program(name: str) -> pathlib.Path:
    """The launcher of a program, or what the variable of that name in capitals names."""
    return pathlib.Path(os.environ.get(name.upper(), TOP / name))


def start(name: str, words: list[str], text: bytes) -> tuple[int, str]:
    try:
        ran = subprocess.run([program(name), *words], input=text, stdout=subprocess.PIPE, check=False)
    except OSError as failed:
        raise Failed(70, f"{name} can't be started: {failed.strerror}") from failed
    return ran.returncode, ran.stdout.decode()


def searched(words: list[str], text: bytes) -> tuple[int, str]:
    """What `outcomes` prints, and its status; raises where it is neither a list nor a trace."""
    status, said = start("outcomes", words, text)
    if status == 2:
        raise WrongWords
    if status == 3:
        _, _, line, kind = said.split()
        raise Failed(3, f"the input is no script: line {line}, {kind}")
    if status not in LISTED:
        raise Failed(status if status in SAID else 70, SAID.get(status, f"outcomes ended with status {status}"))
    return status, said


def reports_of(listed: str) -> list[list[str]]:
    """The lines of each report of a list."""
    reports: list[list[str]] = []
    for line in listed.splitlines()[:-1]:
        if line.startswith("outcome "):
            reports.append([])
        else:
            reports[-1].append(line)
    return reports


def traced(number: int, words: list[str], text: bytes, lines: list[str]) -> Run:
    _, trace = searched(["--trace", str(number), *words], text)
    return run_of(number, trace, [it.split(" ") for it in lines])


def ways_of(reports: list[list[str]], words: list[str], text: bytes) -> Ways:
    """The two runs that are nearest to each other, or the first that hangs, and what parts them."""
    # The lines of the script, the first at 1.
    lines = ["", *text.decode().removesuffix("\n").split("\n")]
    stuck = sum(it[-1] == "stuck" for it in reports)
    ends_number, hangs_number, is_among_first = nearest(reports)
    hangs = traced(hangs_number, words, text, lines)
    if ends_number is None:
        return Ways(lines, len(reports), stuck, is_among_first, None, hangs, [], [])
    ends = traced(ends_number, words, text, lines)
    found = differences(ends, hangs)
    return Ways(lines, len(reports), stuck, is_among_first, ends, hangs, found, decisive(found, ends, hangs))


def drawn(run: Run, ranks: str) -> str:
    status, picture = start("chart", ["--of", ranks], run.trace.encode())
    if status:
        raise Failed(6 if status == 6 else 70, SAID[6] if status == 6 else f"chart ended with status {status}")
    return picture


def pictures_of(both: Ways) -> tuple[Picture | None, Picture]:
    ranks, same = both.lines[1].removeprefix("ranks "), common(both.ends, both.hangs) if both.ends else {}
    places = [it.hangs.place for it in both.decisive]
    right = picture_of("a run that hangs", drawn(both.hangs, ranks), both.hangs, same, places)
    if both.ends is None:
        return None, right
    places = [it.ends.place for it in both.decisive]
    return picture_of("a run that ends", drawn(both.ends, ranks), both.ends, same, places), right


def page(words: list[str], text: bytes) -> tuple[int, str]:
    """The page of a script, and the status."""
    status, listed = searched(words, text)
    reports = reports_of(listed)
    if status == 0:
        return 0, no_hang(len(reports))
    both = ways_of(reports, words, text)
    return 1, page_of(both, *pictures_of(both))


def read() -> bytes:
    try:
        return sys.stdin.buffer.read()
    except (AttributeError, OSError) as failed:
        raise Failed(4, SAID[4]) from failed


def write(text: str) -> None:
    try:
        with open(1, "w", encoding="utf-8", closefd=False) as out:
            out.write(text)
    except OSError as failed:
        raise Failed(5, f"the page can't be written: {failed.strerror}") from failed


def ways(words: list[str]) -> int:
    if not words or not all(map(WORD.fullmatch, words)):
        raise WrongWords
    status, text = page(words, read())
    write(text)
    return status


def main(words: list[str]) -> int:
    signal.signal(signal.SIGINT, signal.SIG_DFL)
    if words in (["--help"], ["--version"]):
        write(USAGE if words == ["--help"] else "ways 1.0 (not proved)\n")
        return 0
    try:
        return ways(words)
    except WrongWords:
        write(USAGE)
        return 2
    except MemoryError:
        print(f"ways: {SAID[6]}", file=sys.stderr)
        return 6
    except Failed as failed:
        print(f"ways: {failed}", file=sys.stderr)
        return failed.status


if __name__ == "__main__":
    sys.exit(main(sys.argv[1:]))
