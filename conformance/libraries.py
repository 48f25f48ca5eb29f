"""The interpreter, built by the user's mpicc, and how it is started."""
from __future__ import annotations

import hashlib
import os
import pathlib
import re
import shutil
import subprocess
from dataclasses import dataclass

HERE = pathlib.Path(__file__).resolve().parent
OUT = HERE / "out"
SOURCES = ("conform.c", "script.h", "board.h", "mistakes.h")


class NoMpi(Exception):
    """A program is missing."""


class NotBuilt(Exception):
    """The mpicc does not build the interpreter."""


@dataclass(frozen=True)
class Library:
    """The words before the number of ranks, and the interpreter."""

    launcher: tuple[str, ...]
    program: pathlib.Path

    def version(self) -> str:
        """What the library calls itself, in its first line."""
        ran = subprocess.run([self.program], capture_output=True, timeout=60, check=False)
        return " ".join(ran.stdout.decode(errors="replace").split("\n")[0].split())


def found(word: str) -> pathlib.Path:
    path = shutil.which(word)
    if path is None:
        raise NoMpi(f"there is no MPI here: no program `{word}`")
    return pathlib.Path(path).resolve()


def stamp_of(words: list[str]) -> str:
    """What the interpreter is made from: the sources, the words and the compiler."""
    compiler = found(words[0])
    state = compiler.stat()
    made_from = hashlib.sha256(repr((words, str(compiler), state.st_size, state.st_mtime_ns)).encode())
    for name in SOURCES:
        made_from.update((HERE / name).read_bytes())
    return made_from.hexdigest()


def build(words: list[str]) -> pathlib.Path:
    """The interpreter by this mpicc, built anew where the sources or the mpicc changed."""
    stamp = stamp_of(words)
    program = OUT / ("conform-" + re.sub(r"[^A-Za-z0-9.]+", "_", " ".join(words)))
    stamped = program.with_name(program.name + ".stamp")
    if program.exists() and stamped.exists() and stamped.read_text() == stamp:
        return program
    OUT.mkdir(exist_ok=True)
    made = OUT / f"made.{os.getpid()}"
    ran = subprocess.run([*words, "-O1", "-std=gnu99", "-o", made, HERE / "conform.c"], stdin=subprocess.DEVNULL,
                         capture_output=True, check=False)
    if ran.returncode or not made.exists():
        said = ran.stderr.decode(errors="replace").strip().split("\n")
        raise NotBuilt(f"`{' '.join(words)}` does not build the interpreter: {said[0] or 'it says nothing'}")
    made.replace(program)
    stamped.write_text(stamp)
    return program


def library(launcher: str, compiler: str) -> Library:
    """Raises NoMpi or NotBuilt."""
    words = launcher.split()
    if not words or not compiler.split():
        raise NoMpi("there is no MPI here: no words name it")
    found(words[0])
    return Library(tuple(words), build(compiler.split()))
