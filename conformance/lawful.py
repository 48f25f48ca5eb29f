#!/usr/bin/env python3
"""Says whether MPI allows the answers of a script's ranks; else names the first answer in time that it doesn't allow,
and what the command could have answered instead. The machine is in worlds.py; nothing here is proved.

    usage: lawful.py [--cut any] STATES <SCRIPT_AND_ANSWERS

The input is a script, a line `---`, then the answers in the order of time, one a line: `RANK LINE ANSWER`, or
`RANK LINE waits` for a rank that is blocked there at the end; the others are at their ends. STATES is how many states
a search may meet. With `--cut any` the length in a `cut` is not compared. `./lawful` is the same, proved, without the
lines `there`.

    lawful                              0   some lawful run has these answers, and rests where these ranks wait
    unlawful N: RANK LINE ANSWER        8   a lawful run can have the answers of the first N - 1 lines, none those of N
    there ANSWER                            one line for each answer that this command could have had instead
    unlawful rest: RANK LINE waits      8   all answers are possible, but no run rests so; the first such rank
    unlawful rest: RANK ends            8   .. which is not at its end
    limit                               7   STATES were not enough
    fault script LINE KIND              3   the bytes before `---` are not a script
    fault answers LINE                  9   the first line after `---`, counted from 1, that is of no line of the script,
                                            of one that has its answer, or of a rank that waits; 0: there is no `---`
"""
from __future__ import annotations

import re
import sys
from collections.abc import Iterator
from dataclasses import dataclass

sys.dont_write_bytecode = True

from guide import BY_NAME, Contradiction, Guide, Told, guide_of
from scripts import Command, Fault, Script, read
from worlds import Rules, World

ANSWER_LINE = re.compile(r"(0|[1-9][0-9]{0,2}) ([1-9][0-9]{0,9})(?: (.*))?")
MOST_STATES = 16_777_216
# The answers of a cancel, and those that are looked up where another one is wrong.
CANCELS = ("done", "late", "asked")
LOOKED_UP = ("wait", "test", "probe", "await", "mprobe")


class Limit(Exception):
    """The search met more states than it may."""


class BadAnswers(Exception):
    """The number of a line that is no answer."""


@dataclass(frozen=True)
class Answer:
    rank: int
    line: int
    text: str
    number: int = 0

    def __str__(self) -> str:
        return f"{self.rank} {self.line}" + (f" {self.text}" if self.text else "")


@dataclass(frozen=True)
class Verdict:
    status: int
    text: str


@dataclass(frozen=True)
class Judge:
    script: Script
    states: int
    any_cut: bool

    def guide(self, answers: list[Answer]) -> Guide | None:
        told: list[Told] = [[] for _ in range(self.script.ranks)]
        for it in answers:
            told[it.rank].append((it.line, it.text))
        try:
            return guide_of(self.script, told)
        except Contradiction:
            return None

    def worlds(self, answers: list[Answer]) -> Iterator[World]:
        """The worlds that guided runs come to, those aside that a settled one leads to by sure moves alone."""
        guide = self.guide(answers)
        if guide is None:
            return
        left, met = [World(Rules(self.script, guide, self.any_cut))], set()
        while left:
            world = left.pop()
            world.settle()
            key = world.key()
            if key not in met:
                met.add(key)
                if len(met) > self.states:
                    raise Limit
                yield world
                left += world.choices()

    def can_tell(self, answers: list[Answer]) -> bool:
        return any(world.are_told() for world in self.worlds(answers))

    def rests(self, answers: list[Answer], waits: list[Answer]) -> int | None:
        """The most of these waits, the first ones, that one lawful run may rest with; None where none tells the answers."""
        most = None
        for world in self.worlds(answers):
            if world.are_told() and next(world.choices(), None) is None:
                most = max(most or 0, self.held(world, waits))
                if most == len(waits):
                    break
        return most

    def held(self, world: World, waits: list[Answer]) -> int:
        held = (self.stands(world, it) and world.may_wait(self.script.at_line[it.line]) for it in waits)
        return next((number for number, holds in enumerate(held) if not holds), len(waits))

    def stands(self, world: World, wait: Answer) -> bool:
        """Whether the rank stands at this line, and says so."""
        commands = self.script.of_rank[wait.rank]
        place = world.at[wait.rank]
        return wait.text == "waits" and place < len(commands) and commands[place].line == wait.line

    def verdict(self, answers: list[Answer], waits: list[Answer]) -> Verdict:
        waits = sorted(waits + self.unsaid(answers, waits), key=lambda it: it.rank)
        held = self.rests(answers, waits)
        if held is None and not self.can_tell(answers):
            return self.unlawful_answer(answers)
        if held is not None and held == len(waits):
            return Verdict(0, "lawful\n")
        wait = waits[held or 0]
        where = f"{wait.line} waits" if wait.text == "waits" else "ends"
        return Verdict(8, f"unlawful rest: {wait.rank} {where}\n")

    def unsaid(self, answers: list[Answer], waits: list[Answer]) -> list[Answer]:
        """The place of each rank that is not at its end and does not say that it waits."""
        waiting = {it.rank for it in waits}
        guide = self.guide(answers)
        places = [(commands, len(steps)) for commands, steps in zip(self.script.of_rank, guide.steps)] if guide else []
        return [Answer(rank, commands[place].line, "nothing") for rank, (commands, place) in enumerate(places)
                if place < len(commands) and rank not in waiting]

    def unlawful_answer(self, answers: list[Answer]) -> Verdict:
        """By halves: the first `told` answers can be told, the first `not_told` can't."""
        told, not_told = 0, len(answers)
        while not_told - told > 1:
            half = (told + not_told) // 2
            if self.can_tell(answers[:half]):
                told = half
            else:
                not_told = half
        wrong = answers[told]
        there = [f"there {it}\n" for it in self.instead(answers[:told], wrong)]
        return Verdict(8, f"unlawful {wrong.number}: {wrong}\n" + "".join(there))

    def instead(self, before: list[Answer], wrong: Answer) -> list[str]:
        """Each other answer that the command could have told, byte by byte in order."""
        command = self.script.at_line[wrong.line]
        likely = BY_NAME[command.word] + (CANCELS if command.word == "cancel" else ())
        tried = {it for it in likely if self.can_tell([*before, Answer(wrong.rank, wrong.line, it)])}
        if command.word in LOOKED_UP and not tried:
            tried = {it for world in self.worlds(before) if self.is_next(world, command) for it in world.tellings(command)}
        return sorted(tried - {wrong.text})

    def is_next(self, world: World, command: Command) -> bool:
        commands = self.script.of_rank[command.rank]
        return world.are_told() and command in commands[world.at[command.rank]:][:1]


def answers_of(script: Script, text: str) -> tuple[list[Answer], list[Answer]]:
    """The answers and the waits of a text."""
    answers, waits = [], []
    for number, line in enumerate(text.removesuffix("\n").split("\n") if text else [], 1):
        match = ANSWER_LINE.fullmatch(line)
        command = script.at_line.get(int(match[2])) if match else None
        if command is None or command.rank != int(match[1]) or any(it.rank == command.rank for it in waits):
            raise BadAnswers(number)
        answer = Answer(command.rank, command.line, match[3] or "", number)
        if answer.text != "waits" and any(it.line == answer.line for it in answers):
            raise BadAnswers(number)
        (waits if answer.text == "waits" else answers).append(answer)
    return answers, waits


def judge(data: bytes, states: int, any_cut: bool) -> Verdict:
    lines = data.split(b"\n")
    if b"---" not in lines:
        return Verdict(9, "fault answers 0\n")
    middle = lines.index(b"---")
    try:
        script = read(b"".join(it + b"\n" for it in lines[:middle]))
        answers, waits = answers_of(script, b"\n".join(lines[middle + 1:]).decode(errors="replace"))
        return Judge(script, states, any_cut).verdict(answers, waits)
    except Fault as fault:
        return Verdict(3, f"{fault}\n")
    except BadAnswers as bad:
        return Verdict(9, f"fault answers {bad}\n")
    except Limit:
        return Verdict(7, "limit\n")


def main(words: list[str]) -> int:
    any_cut = words[:2] == ["--cut", "any"]
    number = words[2:] if any_cut else words
    if len(number) != 1 or not re.fullmatch("[1-9][0-9]{0,7}", number[0]) or int(number[0]) > MOST_STATES:
        print("usage: lawful.py [--cut any] STATES <SCRIPT_AND_ANSWERS")
        return 2
    verdict = judge(sys.stdin.buffer.read(), int(number[0]), any_cut)
    sys.stdout.write(verdict.text)
    return verdict.status


if __name__ == "__main__":
    sys.exit(main(sys.argv[1:]))
