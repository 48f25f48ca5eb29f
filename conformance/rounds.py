"""Runs a script for many rounds, launch after launch, and reads what its ranks told."""
from __future__ import annotations

import pathlib
import re
import subprocess
import sys
import tempfile
from dataclasses import dataclass, field

import processes
from lawful import Answer
from libraries import Library
from scripts import Command, Script

STALL_SECONDS = 60
# Each costs a launch and the watchdog's time.
MOST_STUCK = 5
PLACING_TRIES = 3


@dataclass(frozen=True)
class Report:
    """What the ranks of one round told, in the order of time, and where they wait."""

    answers: tuple[Answer, ...]
    waits: tuple[Answer, ...]

    def text(self, script: Script) -> str:
        """As `run` of docs/use/script.md writes it, without the line of cells."""
        lines = sorted([*self.answers, *self.waits], key=lambda it: (it.rank, it.line))
        return "".join(f"{it}\n" for it in lines) + ("stuck\n" if self.waits else "done\n")


@dataclass(frozen=True)
class Crash:
    """A launch that did not end as it should: in which round, how, what was said, where each rank was."""

    round: int
    how: str
    said: str
    places: tuple[Command, ...] = ()


@dataclass
class Runs:
    """All rounds of a script."""

    reports: list[Report] = field(default_factory=list)
    crash: Crash | None = None
    said: str = ""


@dataclass(frozen=True)
class Plan:
    """How often a script runs, with what pauses, how long nothing may happen, and how many rounds in a row in which a rank
    waits are enough."""

    rounds: int
    seed: int
    wait_ms: int
    most_stuck: int = MOST_STUCK


@dataclass
class RankText:
    """The text of one rank: the answers of each round, with their times; the rounds that ended; the last command that
    was begun; how the rank left."""

    rounds: dict[int, list[tuple[int, Answer]]] = field(default_factory=dict)
    ended: set[int] = field(default_factory=set)
    at: int | None = None
    gone: str | None = None

    def read(self, rank: int, text: str) -> RankText:
        now: list[tuple[int, Answer]] = []
        number = -1
        for line in text.split("\n")[:-1]:
            word, _, rest = line.partition(" ")
            if word == "round":
                number, now = int(rest), []
                self.rounds[number] = now
            elif word == "end":
                self.ended.add(number)
                self.at = None
            elif word == "at":
                self.at = int(rest)
            elif word in ("left", "finalized"):
                self.gone = word
            else:
                answer, _, stamp = rest.rpartition(" @")
                now.append((int(stamp), Answer(rank, int(word), sys.intern(answer))))
        return self


def texts_of(script: Script, base: pathlib.Path) -> list[RankText]:
    paths = [base.with_name(f"{base.name}.{rank}") for rank in range(script.ranks)]
    return [RankText().read(rank, path.read_text() if path.exists() else "") for rank, path in enumerate(paths)]


def whole_rounds(texts: list[RankText]) -> dict[int, Report]:
    """The rounds that all ranks ended."""
    whole = set.intersection(*(it.ended for it in texts))
    return {number: report_of([it.rounds[number] for it in texts]) for number in sorted(whole)}


def report_of(each: list[list[tuple[int, Answer]]]) -> Report:
    timed = sorted((it for told in each for it in told), key=lambda it: (it[0], it[1].rank, it[1].line))
    told = [it for _, it in timed]
    return Report(tuple(it for it in told if it.text != "waits"), tuple(it for it in told if it.text == "waits"))


class Progress:
    """Tells a launch whose ranks have written nothing for long: at so many looks, of which there is one in a second. The
    clock is not asked, since it goes on where all is stopped for a while."""

    def __init__(self, folder: pathlib.Path, looks: float):
        self.folder, self.looks = folder, looks
        self.size, self.equal = -1, 0

    def is_stalled(self) -> bool:
        size = sum(it.stat().st_size for it in self.folder.glob("told.*"))
        self.equal = self.equal + 1 if size == self.size else 0
        self.size = size
        return self.equal > self.looks


@dataclass(frozen=True)
class Launch:
    first: int
    rounds: dict[int, Report]
    texts: list[RankText]
    ended: processes.Ended

    def is_stuck(self) -> bool:
        return any(it.waits for it in self.rounds.values())

    def next_round(self) -> int:
        return max(self.rounds, default=self.first - 1) + 1

    def is_broken_off(self) -> bool:
        """Whether it ended within a round."""
        begun = {number for it in self.texts for number in it.rounds}
        return not self.rounds or not begun <= self.rounds.keys()

    def fault(self) -> str | None:
        """What is wrong with the launch itself."""
        ended = self.ended
        if ended.stopped:
            late = "" if self.is_broken_off() else " after its last round, in MPI_Finalize or mpiexec"
            return f"{ended.stopped}{late}"
        if self.is_broken_off():
            return f"{'' if self.rounds else 'no round was run, and '}mpiexec ended with status {ended.status}"
        gone = {it.gone for it in self.texts}
        if not self.is_stuck() and "left" not in gone and gone != {"finalized"}:
            return f"a rank died after its last round, and mpiexec ended with status {ended.status}"
        return f"{ended.left} processes were left behind" if ended.left else None


class Runner:
    """Runs scripts on an MPI library."""

    def __init__(self, library: Library):
        self.library = library

    def launch(self, script: Script, plan: Plan, first: int, is_placing: bool = False) -> Launch:
        with tempfile.TemporaryDirectory(prefix="conform-", ignore_cleanup_errors=True) as name:
            folder = pathlib.Path(name)
            (folder / "script").write_text(script.text)
            rounds = 1 if is_placing else plan.rounds - first
            words = [*self.library.launcher, str(script.ranks), str(self.library.program), str(folder / "told"),
                     str(folder / "script"), str(first), str(rounds), str(plan.wait_ms), str(plan.seed), str(int(is_placing))]
            stall = max(STALL_SECONDS, 15 * plan.wait_ms / 1000)
            ended = processes.run(words, folder, Progress(folder, stall).is_stalled)
            texts = texts_of(script, folder / "told")
            return Launch(first, whole_rounds(texts), texts, ended)

    def run(self, script: Script, plan: Plan, is_placing: bool = True) -> Runs:
        """All rounds; where one crashes, it is run again to place the crash."""
        runs, first, stuck = Runs(), 0, 0
        while first < plan.rounds and stuck < plan.most_stuck:
            launch = self.launch(script, plan, first)
            runs.reports += launch.rounds.values()
            runs.said = runs.said or own_words(launch.ended.said, launch.is_stuck())
            first = launch.next_round()
            fault = launch.fault()
            if fault:
                places = self.places(script, plan, first) if is_placing and launch.is_broken_off() else ()
                runs.crash = Crash(first, fault, launch.ended.said, places)
                break
            stuck = stuck + 1 if launch.is_stuck() and len(launch.rounds) == 1 else int(launch.is_stuck())
        return runs

    def places(self, script: Script, plan: Plan, number: int) -> tuple[Command, ...]:
        """Where each rank is when the round crashes again, with each line written at once."""
        for _ in range(PLACING_TRIES):
            launch = self.launch(script, plan, number, is_placing=True)
            if launch.fault():
                lines = [it.at for it in launch.texts if it.at is not None]
                return tuple(script.at_line[it] for it in lines)
        return ()


def own_words(said: str, is_stuck: bool) -> str:
    """What was printed, but for what mpiexec says of ranks that left a hang."""
    if is_stuck:
        return ""
    noise = re.compile(r"\s*$|=+$|=   |YOUR APPLICATION|This typically|Please see")
    return "\n".join(line for line in said.split("\n") if not noise.match(line))


class StandIn:
    """`nemesis run` in place of a library: a run is a round, and the order of the answers is that of its report."""

    def __init__(self, program: str):
        self.program = program

    def run(self, script: Script, plan: Plan, is_placing: bool = True) -> Runs:
        runs = Runs()
        for number in range(plan.rounds):
            ran = subprocess.run([self.program, "run"], input=script.text.encode(), capture_output=True, check=False)
            if ran.returncode not in (0, 1):
                runs.crash = Crash(number, f"status {ran.returncode}", (ran.stdout + ran.stderr).decode(errors="replace"))
                break
            told = [Answer(int(rank), int(line), text) for rank, line, text in
                    (it.split(" ", 2) for it in ran.stdout.decode().splitlines()[:-2])]
            runs.reports.append(Report(tuple(it for it in told if it.text != "waits"),
                                       tuple(it for it in told if it.text == "waits")))
        return runs
