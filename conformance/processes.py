"""Starts a program whose processes are known by a word in their environment, so that none is left running."""
from __future__ import annotations

import contextlib
import os
import pathlib
import signal
import subprocess
import time
import uuid
from collections.abc import Callable
from dataclasses import dataclass

GRACE_SECONDS = 2.0
MOST_SAID = 1_000_000
TOKEN = f"CONFORM_LAUNCH={uuid.uuid4().hex}"
# Open MPI: more ranks than processors are no fault; no text of its own where a rank leaves without MPI_Finalize.
DEFAULTS = {"OMPI_MCA_rmaps_base_oversubscribe": "1", "OMPI_MCA_orte_execute_quiet": "1"}


@dataclass(frozen=True)
class Ended:
    """How a program ended: its status, or why it was stopped; what it said; how many processes it left behind."""

    status: int | None
    stopped: str | None
    said: str
    left: int


def environment() -> dict[str, str]:
    name, value = TOKEN.split("=")
    return {**DEFAULTS, **os.environ, name: value}


def own_processes() -> list[int]:
    """The processes that this run started, and theirs, wherever they went."""
    found = []
    for folder in pathlib.Path("/proc").iterdir():
        with contextlib.suppress(OSError):
            if folder.name.isdigit() and TOKEN.encode() in (folder / "environ").read_bytes().split(b"\0"):
                found.append(int(folder.name))
    return found


def kill_own() -> int:
    """Kills them; how many there were."""
    killed = set()
    while processes := own_processes():
        for it in processes:
            with contextlib.suppress(OSError):
                os.kill(it, signal.SIGKILL)
        killed.update(processes)
        time.sleep(0.01)
    return len(killed)


def wait_until_gone() -> None:
    end = time.monotonic() + GRACE_SECONDS
    while own_processes() and time.monotonic() < end:
        time.sleep(0.02)


def run(words: list[str], folder: pathlib.Path, is_stalled: Callable[[], bool]) -> Ended:
    """Runs a program until it ends, stalls, or says too much; then nothing of it runs any more."""
    said = folder / "said"
    with said.open("wb") as file:
        program = subprocess.Popen(words, stdin=subprocess.DEVNULL, stdout=file, stderr=subprocess.STDOUT,
                                   env=environment(), start_new_session=True)
        try:
            stopped = watch(program, said, is_stalled)
            if stopped is None:
                wait_until_gone()
            left = kill_own()
        finally:
            kill_own()
            program.wait()
    with said.open("rb") as file:
        text = file.read(MOST_SAID).decode(errors="replace")
    return Ended(program.returncode, stopped, text, 0 if stopped else left)


def watch(program: subprocess.Popen, said: pathlib.Path, is_stalled: Callable[[], bool]) -> str | None:
    """Waits for the end; why the program has to be stopped, or None."""
    while True:
        try:
            program.wait(timeout=1)
            return None
        except subprocess.TimeoutExpired:
            if said.stat().st_size > MOST_SAID:
                return "it prints without end"
            if is_stalled():
                return "it makes no progress"
