#!/usr/bin/env python3
"""Runs an MPI program, and writes its point-to-point calls down as a script (docs/use/record.md)."""
from __future__ import annotations

import argparse
import math
import os
import pathlib
import signal
import subprocess
import sys
import tempfile
import time

sys.dont_write_bytecode = True
TOP = pathlib.Path(__file__).resolve().parent.parent
sys.path.insert(0, str(TOP / "conformance"))

from libraries import NoMpi, NotBuilt, found
from processes import environment, kill_own

from calls import Refused, library_of, read_calls
from places import places_of, with_places

USAGE = """\
usage: record [--still N] [--cc mpicc] NAME PROGRAM ..
       record --why STATES NAME

  NAME           NAME.script gets the calls, NAME.places where each stands in the program's sources
  PROGRAM ..     what starts the program, as `mpiexec -n 4 ./ring`
  --still N      stops it when no rank made a new call for N seconds (else Ctrl-C does)
  --cc WORDS     the compiler of its MPI library
  --why STATES   asks ./why about NAME.script, and adds the places

status: 0 the program ended, 1 it was stopped, 2 these words, 3 its calls are no script, 4 it failed, 5 the mpicc builds
nothing, 77 there is no MPI; with --why that of ./why
"""


class Words(argparse.ArgumentParser):
    def error(self, message: str):
        sys.stdout.write(USAGE)
        sys.exit(2)


def words_of(words: list[str]) -> argparse.Namespace:
    parser = Words(add_help=False, allow_abbrev=False)
    parser.add_argument("--still", type=float)
    parser.add_argument("--cc", default="mpicc")
    parser.add_argument("--why")
    parser.add_argument("name")
    parser.add_argument("program", nargs=argparse.REMAINDER)
    asked = parser.parse_args(words)
    if bool(asked.why) == bool(asked.program):
        parser.error("a program, or --why")
    return asked


def complain(sentence: str) -> None:
    print(f"record: {sentence}", file=sys.stderr)


def written(folder: pathlib.Path) -> int:
    """How many bytes the ranks wrote down."""
    return sum(it.stat().st_size for it in folder.iterdir())


def watch(program: subprocess.Popen, folder: pathlib.Path, still: float) -> int | None:
    """The status of the program, or None where no rank made a new call for so many seconds."""
    known, since = 0, time.monotonic()
    while True:
        try:
            return program.wait(timeout=0.2)
        except subprocess.TimeoutExpired:
            now = written(folder)
            if now > known or not now:
                known, since = now, time.monotonic()
            elif time.monotonic() - since > still:
                return None


def run(words: list[str], library: pathlib.Path, folder: pathlib.Path, still: float) -> int | None:
    """The status of the program, or None where it was stopped; then nothing of it runs any more."""
    loaded = " ".join(filter(None, (str(library), os.environ.get("LD_PRELOAD"))))
    program = subprocess.Popen(words, env={**environment(), "LD_PRELOAD": loaded, "NEMESIS_RECORD": str(folder)},
                               start_new_session=True)
    try:
        return watch(program, folder, still)
    except KeyboardInterrupt:
        return None
    finally:
        kill_own()
        program.wait()


def record(asked: argparse.Namespace) -> int:
    found(asked.program[0])
    library = library_of(asked.cc.split())
    with tempfile.TemporaryDirectory() as name:
        folder = pathlib.Path(name)
        status = run(asked.program, library, folder, asked.still or math.inf)
        calls = read_calls(folder)
    pathlib.Path(f"{asked.name}.script").write_text(calls.script())
    pathlib.Path(f"{asked.name}.places").write_text(places_of(calls))
    for it in calls.warnings:
        complain(it)
    how = "was stopped" if status is None else f"ended with status {status}"
    complain(f"{calls.ranks} ranks, {len(calls.lines)} commands in {asked.name}.script; the program {how}")
    return 1 if status is None else 4 if status else 0


def why(asked: argparse.Namespace) -> int:
    script = pathlib.Path(f"{asked.name}.script").read_bytes()
    places = pathlib.Path(f"{asked.name}.places").read_text()
    ran = subprocess.run([os.environ.get("WHY", TOP / "why"), asked.why], input=script, stdout=subprocess.PIPE, check=False)
    sys.stdout.write(with_places(ran.stdout.decode(), script.decode(), places))
    return ran.returncode


def main(words: list[str]) -> int:
    if words == ["--help"]:
        sys.stdout.write(USAGE)
        return 0
    signal.signal(signal.SIGTERM, signal.default_int_handler)
    asked = words_of(words)
    try:
        return why(asked) if asked.why else record(asked)
    except NoMpi as missing:
        complain(str(missing))
        return 77
    except NotBuilt as failed:
        complain(str(failed))
        return 5
    except Refused as fault:
        complain(str(fault))
        return 3
    except OSError as failed:
        complain(str(failed))
        return 4


if __name__ == "__main__":
    sys.exit(main(sys.argv[1:]))
