"""Asks the judge of reports, and counts what `outcomes` lists."""
from __future__ import annotations

import pathlib
import re
import subprocess
from dataclasses import dataclass

import lawful
from rounds import Report
from scripts import Script

HERE = pathlib.Path(__file__).resolve().parent
TOP = HERE.parent
PROVED = TOP / "built/proved/lawful"
OUTCOMES = [TOP / "built/proved/outcomes", TOP / "built/unproved/outcomes"]
LISTED_STATES, LISTED_SECONDS = 20_000, 20
FIRST = re.compile(r"unlawful (\d+|rest): (\d+) (?:(\d+) )?(.*)")


class NoVerdict(Exception):
    """The judge did not answer."""


@dataclass(frozen=True)
class Finding:
    """The first answer that no lawful run tells: how many stand before it in time, and what could stand there; or, where
    all can be told, the first wait that no lawful run rests with."""

    before: int | None
    rank: int
    line: int
    answer: str
    there: tuple[str, ...]


@dataclass(frozen=True)
class Judge:
    states: int

    @staticmethod
    def name() -> str:
        return ("./lawful, which is proved, and " if PROVED.exists() else "") + "conformance/lawful.py, which is not proved"

    def verdict(self, text: bytes) -> lawful.Verdict:
        """The proved judge's, where it is built and its states are enough; what could stand there is the other's."""
        quick = lawful.judge(text, self.states, any_cut=True)
        if not PROVED.exists():
            return quick
        words = [PROVED, "--cut", "any", str(self.states)]
        ran = subprocess.run(words, input=text, capture_output=True, check=False)
        said = ran.stdout.decode()
        if ran.returncode == 7 or (ran.returncode == quick.status and quick.text.startswith(said)):
            return quick
        raise NoVerdict(f"the judges disagree: {said.strip()}, and {quick.text.splitlines()[0]}")

    def finding(self, script: Script, report: Report) -> Finding | None | str:
        """What is unlawful; None where nothing is, `limit` where the states were not enough."""
        text = script.text + "---\n" + "".join(f"{it}\n" for it in (*report.answers, *report.waits))
        verdict = self.verdict(text.encode())
        said = verdict.text.splitlines()
        if verdict.status == 0:
            return None
        if verdict.status == 7:
            return "limit"
        match = FIRST.fullmatch(said[0]) if said and verdict.status == 8 else None
        if match is None:
            raise NoVerdict(f"the judge ended with status {verdict.status}: {' '.join(said[:1])}")
        before, rank = None if match[1] == "rest" else int(match[1]) - 1, int(match[2])
        line = int(match[3]) if match[3] else unanswered(script, report, rank)
        return Finding(before, rank, line, match[4], tuple(it.removeprefix("there ") for it in said[1:]))


def unanswered(script: Script, report: Report, rank: int) -> int:
    """The line of a rank's first command without an answer; that of its last command where each has one."""
    told = {int(str(it).split()[1]) for it in report.answers}
    own = [it.line for it in script.of_rank[rank]]
    return next((it for it in own if it not in told), own[-1])


def without_lengths(report: str) -> str:
    """MPI says nothing of the length of a message that was cut, and lines of cells are the program's own."""
    report = re.sub(r"(?m)^(\d+ \d+ cut \d+ \d+) \d+$", r"\1 -", report)
    return re.sub(r"(?m)^cells .*\n", "", report)


def listed(script: Script, outcomes: pathlib.Path | None) -> set[str] | None:
    """The reports that `outcomes` lists; None where it is not there, or would take long."""
    program = next((it for it in ([outcomes] if outcomes else OUTCOMES) if it.exists()), None)
    if program is None:
        return None
    try:
        ran = subprocess.run([program, str(LISTED_STATES)], input=script.text.encode(), capture_output=True,
                             timeout=LISTED_SECONDS, check=False)
    except subprocess.TimeoutExpired:
        return None
    if ran.returncode not in (0, 1):
        return None
    parts = re.split(r"(?m)^outcomes? \d+.*\n", ran.stdout.decode())
    return {without_lengths(it) for it in parts if it}
