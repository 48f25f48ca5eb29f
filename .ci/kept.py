"""The programs that were built, proved or not, and the sources that each was made from.

They are kept in `built/proved` and `built/unproved`. Beside each are a sum over its sources' texts, and their seal, which
is a sum over names, sizes and times that the launcher can make in milliseconds. A program counts as built from what is
there where the seal is the same, or, where files were only touched or copied, where the sum is.
"""
import contextlib
import fcntl
import hashlib
import os
import shutil
import subprocess

import kit

BUILT = kit.TOP / "built"
KINDS = ("proved", "unproved")


class Sources:
    """What a program's sources are like at one moment."""

    def __init__(self, name):
        self.name = name
        launch = [kit.TOP / ".ci" / "launch", "--seal", name]
        self.seal = subprocess.run(launch, stdin=subprocess.DEVNULL, stdout=subprocess.PIPE, text=True, check=True).stdout
        self.sum = self.summed()

    def files(self):
        crates = [*kit.below(self.name, kit.named()), self.name]
        parts = [kit.TOP / "crates" / it / part for it in crates for part in ("src", "specs")]
        return [kit.TOP / "crates.txt", *sorted(it for part in parts for it in part.rglob("*") if it.is_file())]

    def summed(self):
        found = hashlib.sha256()
        for it in self.files():
            text = it.read_bytes()
            found.update(f"{it.relative_to(kit.TOP)} {len(text)}\n".encode())
            found.update(text)
        return found.hexdigest() + "\n"


def beside(kind, name, what):
    return BUILT / kind / f"{name}.{what}"


def text_of(path):
    return path.read_text() if path.exists() else ""


def write(path, text):
    """Writes a small file whole or not at all."""
    new = path.with_name(f"{path.name}.new")
    new.write_text(text)
    os.replace(new, path)


def is_there(kind, name):
    return os.access(BUILT / kind / name, os.X_OK)


def is_of(kind, sources):
    """Whether a program is there that was made from sources of these texts."""
    return is_there(kind, sources.name) and text_of(beside(kind, sources.name, "sum")) == sources.sum


def renew(kind, sources):
    """Takes a program for one of these sources, if their texts are those that it was made from."""
    if not is_of(kind, sources):
        return False
    write(beside(kind, sources.name, "seal"), sources.seal)
    return True


def keep(kind, sources, program, line=None):
    """Puts a program in its place. Until the last step none counts as built."""
    room = BUILT / kind
    room.mkdir(parents=True, exist_ok=True)
    beside(kind, sources.name, "seal").unlink(missing_ok=True)
    beside(kind, sources.name, "sum").unlink(missing_ok=True)
    new = room / f"{sources.name}.new"
    shutil.copyfile(program, new)
    new.chmod(0o755)
    os.replace(new, room / sources.name)
    if line:
        write(beside(kind, sources.name, "line"), line)
    write(beside(kind, sources.name, "sum"), sources.sum)
    write(beside(kind, sources.name, "seal"), sources.seal)


@contextlib.contextmanager
def in_turn(lock, waits):
    """Waits until no other process holds the file. What this one starts holds it, too, should this one be killed."""
    lock.parent.mkdir(parents=True, exist_ok=True)
    held = os.open(lock, os.O_RDWR | os.O_CREAT)
    try:
        fcntl.flock(held, fcntl.LOCK_EX | fcntl.LOCK_NB)
    except BlockingIOError:
        waits()
        fcntl.flock(held, fcntl.LOCK_EX)
    except OSError:
        # Some file systems have no locks.
        pass
    os.set_inheritable(held, True)
    yield
    os.close(held)
