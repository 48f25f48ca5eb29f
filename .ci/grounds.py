"""What wrong bodies are tried over: the libraries below their crates, and what a check of each crate begins with."""
import contextlib
import hashlib
import json
import os
import pathlib
import shutil
import tempfile

import kit
import plan

# What is used of the toolchain's module.
USED = ("Crate", "Kept", "SEEDS", "checked", "copy_crates", "crates_of", "free", "handles_of", "in_lanes", "linked",
        "must_fail", "need", "processors", "rtlib", "seeded", "share_work", "stamp_of", "sweep", "work_for")


class Lacking(Exception):
    """Why nothing can be tried."""


def load():
    """The toolchain's module, sharing what is proved with the other checkouts on this machine."""
    rt = kit.load()
    if rt is None or any(not hasattr(rt, it) for it in USED):
        raise Lacking("the toolchain is made otherwise than it was")
    rt.Crate.allowed = rt.handles_of(str(kit.TOP))
    rt.share_work(False)
    rt.rtlib.guarded()
    rt.sweep()
    return rt


class Grounds:
    """The crates over the libraries that this checkout has, or that a gate on this machine proved of the same files.

    Where neither has all that these crates stand on, what lacks here is proved.
    """

    def __init__(self, rt, own, names):
        self.rt, self.own, self.cost = rt, own, plan.costs()
        below = {it.name: it for name in names for it in own[name].below()}
        lacking = [it for it in below.values() if not it.is_built()]
        self.crates = own if not lacking else self.of_gate(below) or self.proved(lacking)

    def seconds(self, name):
        return self.cost.get(name, plan.UNKNOWN)[0]

    def of_gate(self, names):
        """The crates of a copy, with the libraries that a gate kept, lowest first, or None where it kept not all."""
        room = tempfile.mkdtemp(prefix=f"rt-copy-{os.getpid()}-")
        self.rt.SEEDS.append(room)
        self.rt.copy_crates(str(kit.TOP), f"{room}/repo")
        os.mkdir(f"{room}/repo/.git")
        crates = {it.name: it for it in self.rt.crates_of(f"{room}/repo")}
        kept = self.rt.Kept(crates.values())
        for name in names:
            key = kept.key(crates[name])
            if not kept.give(crates[name], False, key):
                return None
            # As `is_built` has it, by the sums that were compared just now.
            made = json.loads(pathlib.Path(kept.place(crates[name], False, key), "made.json").read_text())
            kept.rlibs[name] = hashlib.sha256(repr([*map(tuple, made["files"])]).encode()).hexdigest()
        return crates

    def proved(self, lacking):
        """The crates of this checkout, once these libraries are proved here."""
        print(f"wrong_bodies: proves {len(lacking)} libraries first", flush=True)
        names, tasks = {it.name for it in lacking}, {}
        for crate in lacking:
            waits = [(it.name, "proof") for it in crate.below() if it.name in names]
            prove = lambda given, jobs, it=crate: all(given.values()) and self.prove(it, jobs)
            tasks[crate.name, "proof"] = (waits, self.seconds(crate.name), self.rt.need(crate), prove)
        held = self.rt.rtlib.lock(lacking)
        given = self.rt.in_lanes(tasks)
        for it in held:
            os.close(it)
        if not all(given.values()):
            name = next(name for (name, _), is_proved in given.items() if not is_proved)
            raise Lacking(f"{name} is not proved: see crates/{name}/out/build.log")
        return self.own

    def prove(self, crate, jobs):
        os.makedirs(f"{crate.folder}/out", exist_ok=True)
        with open(f"{crate.folder}/out/build.log", "w", errors="replace") as crate.out:
            return crate.build_rlib(["--jobs", str(jobs)], anew=False) == 0

    @contextlib.contextmanager
    def seed(self, name, jobs):
        """A folder with what a check of the crate as it stands proved, begun with what one kept; None if it fails."""
        begun = self.rt.work_for(self.own[name])
        room = self.rt.seeded(self.crates[name], ["--jobs", str(jobs)], begun)
        try:
            yield room and f"{room}/seed"
        finally:
            shutil.rmtree(room or "", ignore_errors=True)
