#!/usr/bin/env python3
"""The repository's crates by crates.txt, and the toolchain's command `rt` with the stamp of each crate worked out once.

`.ci/kit.py check ..` is `rt check ..`.

A stamp is the sum of a crate's files and of the stamps of the crates that it names. `rt` works it out anew on each way
down through crates.txt, 10,000 of them below `nm_cli`, which takes 14 seconds, and does so some seven times. Here it is
kept from one run of the prover to the next. Where the toolchain is made otherwise than this file expects, `rt` runs as
it is.
"""
import importlib.machinery
import importlib.util
import os
import pathlib
import shutil
import subprocess
import sys

TOP = pathlib.Path(__file__).resolve().parent.parent


def all_uses(text):
    """The libraries that each crate names, those of the toolchain among them, by the text of crates.txt."""
    rows = [line.partition("#")[0].partition(":") for line in text.splitlines()]
    return {head.split()[0]: deps.split() for head, _, deps in rows if head.strip()}


def uses(text):
    """The libraries of the repository that each crate names, by the text of crates.txt."""
    named = all_uses(text)
    return {name: [it for it in deps if it in named] for name, deps in named.items()}


def named():
    """The libraries of the repository that each crate of it names."""
    return uses((TOP / "crates.txt").read_text())


def program(name):
    """The file that the launcher runs, built if need be; or the one that the variable of that name in capitals names."""
    if name.upper() in os.environ:
        return pathlib.Path(os.environ[name.upper()]).resolve()
    ran = subprocess.run([TOP / ".ci" / "launch", "--which", name], stdout=subprocess.PIPE, text=True)
    return pathlib.Path(ran.stdout.rstrip()) if ran.returncode == 0 else sys.exit(ran.returncode)


def static_libraries():
    """The files that C links: those that LIBNEMESIS names, or the library of this checkout, proved or not."""
    if os.environ.get("LIBNEMESIS"):
        return os.environ["LIBNEMESIS"].split()
    ran = subprocess.run([TOP / ".ci" / "library", "--any"], stdout=subprocess.PIPE, text=True)
    return [ran.stdout.rstrip()] if ran.returncode == 0 else sys.exit(70)


def git(*words):
    ran = subprocess.run(["git", *words], cwd=TOP, stdout=subprocess.PIPE, stderr=subprocess.PIPE, text=True)
    return ran.stdout if ran.returncode == 0 else None


def parted(rev):
    """The commit at which this work parted from a revision, or from the main line."""
    for it in [rev] if rev else ["origin/main", "main"]:
        found = git("merge-base", it, "HEAD")
        if found:
            return found.strip()
    sys.exit("there is no such revision")


def changed(base, named):
    """The crates with a file or a line of crates.txt that is not as it was, lowest first."""
    files = git("diff", "--name-only", base, "--", "crates")
    files += git("ls-files", "--others", "--exclude-standard", "crates")
    touched = {it.split("/")[1] for it in files.splitlines() if it.count("/") > 1}
    were = uses(git("show", f"{base}:crates.txt") or "")
    return [it for it in named if it in touched or named[it] != were.get(it)]


def below(name, named, found=()):
    """The libraries that a crate stands on, each behind those that it names."""
    found = dict.fromkeys(found)
    for dep in named[name]:
        if dep not in found:
            found.update(dict.fromkeys([*below(dep, named, found), dep]))
    return [*found]


def amend(crate):
    """Has the class of crates keep its stamps until the prover has run."""
    known, stamp, call = {}, crate.stamp, crate.call

    def kept(self):
        if self.folder not in known:
            known[self.folder] = stamp(self)
        return known[self.folder]

    def forgetting(self, *words):
        try:
            return call(self, *words)
        finally:
            known.clear()

    crate.stamp, crate.call = kept, forgetting


def load():
    """The module of the command `rt`, or None where it is not as it is expected to be."""
    sys.dont_write_bytecode = True
    loader = importlib.machinery.SourceFileLoader("rt", os.path.realpath(shutil.which("rt")))
    made = importlib.util.module_from_spec(importlib.util.spec_from_loader("rt", loader))
    try:
        loader.exec_module(made)
        amend(made.rtlib.Crate)
    except (AttributeError, ImportError, OSError, SyntaxError, ValueError):
        return None
    return made


def main():
    rt = load()
    if rt is None:
        os.execvp("rt", ["rt", *sys.argv[1:]])
    return rt.main(sys.argv[1:])


if __name__ == "__main__":
    sys.exit(main())
