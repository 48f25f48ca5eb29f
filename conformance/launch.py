#!/usr/bin/env python3
"""Runs scripts on an MPI library, and says whether what each command answered is what MPI allows (docs/use/conform.md)."""
from __future__ import annotations

import argparse
import os
import pathlib
import signal
import sys
from dataclasses import replace

sys.dont_write_bytecode = True

from findings import Result, result_of, text_of
from judging import Judge, NoVerdict, listed
from libraries import NoMpi, NotBuilt, library
from processes import kill_own
from rounds import Plan, Runner, StandIn
from scripts import Fault, Script, read
from shrink import least

USAGE = """\
usage: conform [--mpi "mpiexec -n"] [--cc mpicc] [--rounds N] [--shake S] [--wait MS] [--states N]
               [--outcomes PATH] [--shrink] SCRIPT..
       conform --version
       conform --help

  --mpi WORDS      what starts an MPI program, up to the number of ranks; `nemesis` runs this repository's own
  --cc WORDS       what compiles one; both of one library
  --rounds N       how often each script runs (20)
  --shake S        the seed of pauses before commands, 0 for none (1)
  --wait MS        how long nothing may happen before ranks are said to wait for ever (1000)
  --states N       how many states the judge may meet (20000)
  --outcomes PATH  a built `outcomes`, which counts the reports that a script can have
  --shrink         also finds a least script that shows the first fault of each

status: 0 all lawful, 1 an unlawful report, 2 these words, 3 a script is refused, 4 a launch failed, crashed or left
processes behind, 5 the mpicc builds nothing, 7 a report was not judged, 77 there is no MPI
"""
SHRINK_SECONDS = 120


class Words(argparse.ArgumentParser):
    def error(self, message: str):
        sys.stdout.write(USAGE)
        sys.exit(2)


def program(word: str) -> pathlib.Path:
    if not os.access(word, os.X_OK):
        raise argparse.ArgumentTypeError("no program")
    return pathlib.Path(word)


def number_up_to(most: int, least_one: int = 0):
    def number(word: str) -> int:
        if not (word.isascii() and word.isdecimal()) or not least_one <= int(word) <= most:
            raise argparse.ArgumentTypeError("no number in range")
        return int(word)
    return number


def words_of(words: list[str]) -> argparse.Namespace:
    parser = Words(add_help=False, allow_abbrev=False)
    parser.add_argument("--mpi", default="mpiexec -n")
    parser.add_argument("--cc", default="mpicc")
    parser.add_argument("--rounds", type=number_up_to(1_000_000, 1), default=20)
    parser.add_argument("--shake", type=number_up_to(1_000_000_000), default=1)
    parser.add_argument("--wait", type=number_up_to(3_600_000, 100), default=1000)
    parser.add_argument("--states", type=number_up_to(16_777_216, 1), default=20_000)
    parser.add_argument("--outcomes", type=program)
    parser.add_argument("--shrink", action="store_true")
    parser.add_argument("scripts", nargs="+", type=pathlib.Path)
    return parser.parse_args(words)


def complain(sentence: str) -> None:
    print(f"conform: {sentence}", file=sys.stderr)


def scripts_of(paths: list[pathlib.Path]) -> dict[pathlib.Path, Script] | None:
    """All scripts, or None where one is refused."""
    scripts, refused = {}, False
    for path in paths:
        try:
            scripts[path] = read(path.read_bytes())
        except (Fault, OSError) as fault:
            refused = True
            complain(f"{path}: {fault.strerror if isinstance(fault, OSError) else fault}")
    return None if refused else scripts


class Conform:
    """Runs each script, judges it and prints what was found."""

    def __init__(self, asked: argparse.Namespace):
        self.asked = asked
        self.plan = Plan(asked.rounds, asked.shake, asked.wait)
        self.judge = Judge(asked.states)
        if asked.mpi == "nemesis":
            self.runner = StandIn(os.environ.get("NEMESIS", str(pathlib.Path(__file__).resolve().parent.parent / "nemesis")))
        else:
            self.runner = Runner(library(asked.mpi, asked.cc))

    def result(self, path: pathlib.Path, script: Script) -> Result:
        runs = self.runner.run(script, self.plan)
        return result_of(path.name, script, runs, self.judge, listed(script, self.asked.outcomes))

    def shows(self, text: str, kind: str) -> bool:
        script = read(text.encode())
        runs = self.runner.run(script, replace(self.plan, most_stuck=1), is_placing=False)
        return result_of("", script, runs, self.judge).kind() == kind

    def shrunk(self, result: Result) -> str:
        kind = result.kind()
        text = least(result.script.text, lambda it: self.shows(it, kind), SHRINK_SECONDS)
        return "  the least script found that shows it:\n" + "".join(f"    {it}\n" for it in text.splitlines())

    def run(self, path: pathlib.Path, script: Script) -> int:
        result = self.result(path, script)
        sys.stdout.write(text_of(result))
        sys.stdout.flush()
        if self.asked.shrink and result.kind():
            sys.stdout.write(self.shrunk(result))
        return result.status()


def summary(statuses: list[int]) -> str:
    names = {0: "lawful", 1: "unlawful", 4: "crashed", 7: "not judged"}
    counts = ", ".join(f"{statuses.count(it)} {name}" for it, name in names.items() if it in statuses)
    return f"{len(statuses)} scripts: {counts}\n"


def conform(words: list[str]) -> int:
    asked = words_of(words)
    scripts = scripts_of(asked.scripts)
    if scripts is None:
        return 3
    try:
        runs = Conform(asked)
        statuses = [runs.run(path, script) for path, script in scripts.items()]
    except NoMpi as missing:
        complain(str(missing))
        return 77
    except NotBuilt as failed:
        complain(str(failed))
        return 5
    except OSError as failed:
        complain(str(failed))
        return 4
    except NoVerdict as failed:
        complain(str(failed))
        return 70
    if len(statuses) > 1:
        sys.stdout.write(summary(statuses))
    return next((it for it in (1, 4, 7) if it in statuses), 0)


def version() -> None:
    print(f"conform: judged by {Judge.name()}")
    try:
        print(f"on {library('mpiexec -n', 'mpicc').version()}")
    except (NoMpi, NotBuilt) as missing:
        print(missing)


def stop(number: int, _frame: object) -> None:
    sys.exit(128 + number)


def main(words: list[str]) -> int:
    if words == ["--help"]:
        sys.stdout.write(USAGE)
        return 0
    if words == ["--version"]:
        version()
        return 0
    for it in (signal.SIGINT, signal.SIGTERM, signal.SIGHUP):
        signal.signal(it, stop)
    try:
        return conform(words)
    finally:
        kill_own()


if __name__ == "__main__":
    sys.exit(main(sys.argv[1:]))
