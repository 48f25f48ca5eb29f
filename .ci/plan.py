"""Which crate is proved when, on how many processors, and how long all takes."""
import os
import time

import kit

# How much faster one crate is proved on so many processors, as measured at nm_rndv.
GAIN = {1: 1.0, 2: 1.5, 3: 1.9, 4: 2.2}
# A crate above more than so many others is proved by one job, since each job reads all their libraries anew.
MANY = 40
# What a crate costs that the table does not have: seconds on one processor, and megabytes of its folder out/.
UNKNOWN = (30, 100)
# The seconds that one loop of `slowness` takes on the machine of the table.
LOOP = 0.0135


def minutes(seconds):
    return "less than a minute" if seconds < 60 else f"about {round(seconds / 60)} min"


def costs():
    """The seconds and megabytes of each crate, by the table `.ci/costs`."""
    rows = [line.split() for line in (kit.TOP / ".ci" / "costs").read_text().splitlines() if line[:1] != "#"]
    return {name: (int(seconds), int(megabytes)) for name, seconds, megabytes in rows}


def slowness():
    """How many times the seconds of the table this machine takes, by the processor's time of the fastest of five loops."""
    def once():
        begun, total = time.process_time(), 0
        for it in range(500_000):
            total += it * it
        return time.process_time() - begun

    return min(max(min(once() for _ in range(5)) / LOOP, 0.5), 3)


def print_costs():
    """Prints the table anew, with what the proofs from nothing took here, by what they left in out/."""
    table = costs()
    print("# What each crate costs to prove from nothing: seconds on one processor, and megabytes of its folder out/.")
    for name in kit.named():
        out = kit.TOP / "crates" / name / "out"
        if (out / "seconds").exists():
            files = [os.lstat(f"{at}/{it}") for at, _, files in os.walk(out) for it in files]
            table[name] = (int((out / "seconds").read_text()), sum(it.st_blocks for it in files) >> 11)
        if name in table:
            print(name, *table[name])


class Plan:
    """The turns in which crates are proved, lowest first, and how long they take."""

    def __init__(self, names, lanes):
        crates, cost = kit.named(), costs()
        self.uses = {name: [it for it in deps if it in names] for name, deps in crates.items() if name in names}
        self.jobs = {name: 1 if len(kit.below(name, crates)) > MANY else max(GAIN) for name in names}
        self.seconds, self.lanes = {name: cost.get(name, UNKNOWN)[0] for name in names}, lanes
        self.megabytes = {name: cost.get(name, UNKNOWN)[1] for name in names}
        self.way, self.done, self.running = {}, set(), {}
        for name in reversed(names):
            above = [self.way[it] for it in names if name in self.uses[it]]
            self.way[name] = self.seconds[name] + max(above, default=0)
        # What was proved so far, in seconds on one processor, and what the table says of it. The first guess is a loop's.
        self.said = 40.0
        self.took = self.said * slowness()

    def next(self, done, running):
        """The crates to start now, each with its processors: first those with the longest way above them."""
        ready = [it for it in self.way if it not in done and it not in running and done.issuperset(self.uses[it])]
        idle, found = self.lanes - sum(running.values()), []
        ready = sorted(ready, key=lambda it: -self.way[it])[: max(idle, 0)]
        for left, name in zip(range(len(ready), 0, -1), ready):
            jobs = min(-(-idle // left), self.jobs[name])
            found.append((name, jobs))
            idle -= jobs
        return found

    def time(self, name, jobs):
        return self.seconds[name] * self.took / self.said / GAIN[jobs]

    def start(self, name, jobs):
        self.running[name] = (time.monotonic(), jobs)

    def end(self, name):
        """Takes a crate for done, and returns what it took in seconds on one processor."""
        began, jobs = self.running.pop(name)
        took = (time.monotonic() - began) * GAIN[jobs]
        self.took += took
        self.said += self.seconds[name]
        self.done.add(name)
        return took

    def left(self):
        """The seconds until all is done: the same turns, played by the table."""
        now, played, done = time.monotonic(), 0, {*self.done}
        ends = {it: (max(self.time(it, jobs) - now + began, 1), jobs) for it, (began, jobs) in self.running.items()}
        while len(done) < len(self.way):
            for name, jobs in self.next(done, {it: jobs for it, (_, jobs) in ends.items()}):
                ends[name] = played + self.time(name, jobs), jobs
            first = min(ends, key=lambda it: ends[it][0])
            played = ends.pop(first)[0]
            done.add(first)
        return played
