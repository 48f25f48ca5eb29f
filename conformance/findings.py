"""What many rounds of a script come to: equal reports counted, each judged, and the words for it."""
from __future__ import annotations

import collections
from dataclasses import dataclass

from judging import Finding, Judge, without_lengths
from rounds import Crash, Report, Runs
from scripts import Script

MOST_SHOWN, MOST_LINES = 8, 6
WIDTH, NARROW = 100, 40


@dataclass(frozen=True)
class Group:
    """A report, how many rounds had it, and what is unlawful in it."""

    report: Report
    text: str
    rounds: int
    finding: Finding | None | str


@dataclass(frozen=True)
class Result:
    """All that is known of a script, with the reports that `outcomes` lists where it does."""

    name: str
    script: Script
    groups: list[Group]
    crash: Crash | None
    said: str
    listed: set[str] | None

    @property
    def rounds(self) -> int:
        return sum(it.rounds for it in self.groups)

    def unlawful(self) -> list[Group]:
        return [it for it in self.groups if isinstance(it.finding, Finding)]

    def not_judged(self) -> list[Group]:
        return [it for it in self.groups if it.finding == "limit"]

    def kind(self) -> str | None:
        """In one word what was found, so that a shorter script can be said to show the same."""
        for it in self.unlawful():
            return f"{self.script.at_line[it.finding.line].word} {it.finding.answer.split(' ')[0]}"
        return "crash" if self.crash else None

    def status(self) -> int:
        if self.unlawful():
            return 1
        return 4 if self.crash else 7 if self.not_judged() else 0


def result_of(name: str, script: Script, runs: Runs, judge: Judge, listed: set[str] | None = None) -> Result:
    equal = collections.defaultdict(list)
    for it in runs.reports:
        equal[without_lengths(it.text(script))].append(it)
    groups = [Group(many[0], text, len(many), judge.finding(script, many[0])) for text, many in equal.items()]
    groups.sort(key=lambda it: -it.rounds)
    return Result(name, script, groups, runs.crash, runs.said, listed)


def number_of(count: int, what: str) -> str:
    return f"{count} {what}{'' if count == 1 else 's'}"


def short(text: str, width: int = WIDTH) -> str:
    return text if len(text) <= width else f"{text[:width]}.."


def counts_of(groups: list[Group]) -> str:
    counts = [f"{it.rounds} stuck" if it.report.waits else str(it.rounds) for it in groups[:MOST_SHOWN]]
    return ", ".join([*counts, ".."] if len(groups) > MOST_SHOWN else counts)


def seen(result: Result) -> str:
    """How many different lawful reports there were, of how many."""
    lawful = [it for it in result.groups if it.finding is None]
    if not lawful:
        return ""
    many = number_of(len(lawful), "report")
    if result.listed is not None:
        known = sum(it.text in result.listed for it in lawful)
        many = f"{known} of its {number_of(len(result.listed), 'report')}"
        if known < len(lawful):
            many += f" and {len(lawful) - known} that `outcomes` does not list"
    return f"{'; lawful' if result.unlawful() else ''}: {many} seen ({counts_of(lawful)})"


def heading(result: Result) -> str:
    parts = []
    if result.unlawful():
        parts.append(f"UNLAWFUL in {sum(it.rounds for it in result.unlawful())}")
    if result.crash:
        parts.append(f"CRASH in round {result.crash.round}")
    if result.not_judged():
        parts.append(f"not judged in {sum(it.rounds for it in result.not_judged())}, which takes more states")
    ran = f"{number_of(result.script.ranks, 'rank')}, {number_of(result.rounds, 'round')}"
    return f"{result.name}: {ran}, {', '.join(parts) or 'lawful'}{seen(result)}"


def of_finding(script: Script, group: Group) -> list[str]:
    finding = group.finding
    command = script.at_line[finding.line]
    place = f"  line {finding.line}, rank {finding.rank}, `{short(str(command))}`"
    if finding.before is None:
        return [f"{place} " + ("has no answer, and the rank is at its end" if finding.answer == "ends" else
                               "waits for ever; lawful there: to go on")]
    there = ", ".join(f"`{short(it)}`" for it in finding.there[:MOST_SHOWN]) or (
        "to wait" if command.word in ("wait", "await") else "no answer")
    told = [f"`{short(str(it), NARROW)}`" for it in group.report.answers[:finding.before][-MOST_LINES:]]
    before = [f"    answers before it: {', '.join(told)}"] if told else []
    return [f"{place} answers `{short(finding.answer)}`; lawful there: {there}", *before, *of_meaning(finding.answer)]


def of_meaning(answer: str) -> list[str]:
    """What an answer means that no script's report has."""
    means = {
        "overrun": "bytes were written past the end of the receive's memory (MPI 3.1, 3.2.4)",
        "badcount": "the message is longer than the receive, and the library says that all is well",
        "error": "the library says that the call failed",
    }
    return [f"    {means[answer]}"] if answer in means else []


def of_crash(crash: Crash) -> list[str]:
    places = [f"    rank {it.rank} was at line {it.line}, `{short(str(it))}`" for it in crash.places]
    said = [it for it in crash.said.split("\n") if it.strip()][:MOST_LINES]
    return [f"  {crash.how}", *places, *(f"    it said: {short(it)}" for it in said)]


def notes(result: Result) -> list[str]:
    """What a reader has to know of scripts of two kinds."""
    script, found = result.script, bool(result.unlawful())
    cancels = any(it.word == "cancel" for it in script.at_line.values()) and bool(script.messages)
    cut = any(it.text.startswith("cut ") for group in result.unlawful() for it in group.report.answers)
    texts = []
    if found and cancels:
        texts.append("  this script cancels: MPI 4.0 deprecates the cancel of a send, which few libraries keep")
    if found and cut:
        texts.append("  a receive was too short: after an error MPI promises nothing (MPI 3.1, 8.3)")
    return texts


def text_of(result: Result) -> str:
    lines = [heading(result)]
    each = {(it.finding.line, it.finding.answer, it.finding.there): it for it in reversed(result.unlawful())}
    for group in reversed(each.values()):
        lines += of_finding(result.script, group)
    lines += notes(result)
    if result.crash:
        lines += of_crash(result.crash)
    elif result.said.strip():
        said = result.said.strip().split("\n")
        lines.append(f"  the library printed {number_of(len(said), 'line')}: {short(said[0])}")
    return "\n".join(lines) + "\n"
