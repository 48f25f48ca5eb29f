"""What the programs of this folder share: how often something is measured and beside what, and the rows of log.tsv."""
import argparse
import contextlib
import datetime
import os
import pathlib
import subprocess
import sys

HERE = pathlib.Path(__file__).resolve().parent
LOG = HERE / "log.tsv"


def words(said, runs):
    """The words of the command line that all take. They say how often each column runs unless it is asked for."""
    it = argparse.ArgumentParser(description=said, formatter_class=argparse.RawDescriptionHelpFormatter)
    it.add_argument("--runs", type=int, default=runs, help="how often each column runs")
    beside = it.add_mutually_exclusive_group()
    beside.add_argument("--busy", type=int, default=0, help="how many busy loops run beside")
    beside.add_argument("--first", action="store_true", help="before other work, where the user may")
    it.add_argument("--calm", action="store_true", help="rows again where processors were taken away")
    it.add_argument("--no-log", action="store_true", help="add no rows to log.tsv")
    return it


def load(given):
    """Words for what ran beside, and how often each column ran."""
    said = [f"{given.busy} busy loops"] * bool(given.busy) + ["--first"] * given.first + ["--calm"] * given.calm
    return "; ".join([*said, f"{given.runs} runs"])


@contextlib.contextmanager
def busy(count):
    """So many busy loops run meanwhile."""
    loops = [subprocess.Popen(["sh", "-c", "while :; do :; done"]) for _ in range(count)]
    try:
        yield
    finally:
        for it in loops:
            it.kill()


def go_first():
    """What runs from here on goes before other work, where the user may have that."""
    try:
        os.sched_setscheduler(0, os.SCHED_FIFO, os.sched_param(1))
    except PermissionError:
        print("bench: this user may not have SCHED_FIFO, so --first does nothing", file=sys.stderr, flush=True)


def ticks():
    """What the processors did since the machine started, in ticks; the eighth number is time that was taken away."""
    return [int(word) for word in pathlib.Path("/proc/stat").read_text().split("\n")[0].split()[1:9]]


def calm(take):
    """What this measures in a time in which the host took next to nothing of the processors away."""
    for _ in range(100):
        before = ticks()
        got = take()
        spent = [now - then for then, now in zip(before, ticks())]
        if spent[7] <= 0.03 * sum(spent):
            return got
    sys.exit("bench: processors were taken away in each of 100 tries")


def git(*said):
    return subprocess.run(["git", *said], cwd=HERE, capture_output=True, text=True, check=True).stdout.strip()


def commit(is_named):
    """The commit that is measured, as the log names it; or that the program was named."""
    try:
        mark = "?" if is_named else "+" if git("status", "--porcelain", "--", "../crates") else ""
        return git("rev-parse", "--short=8", "HEAD") + mark
    except (OSError, subprocess.CalledProcessError):
        return "-"


def machine():
    """The model of the processor, where the system names it."""
    lines = pathlib.Path("/proc/cpuinfo").read_text().splitlines()
    return next((line.partition(":")[2].strip() for line in lines if line.startswith("model name")), "-")


def note(is_named, *cells):
    """Adds a row to the log: what, wall, processors, pages and beside."""
    row = [datetime.date.today().isoformat(), commit(is_named), machine(), *cells]
    with open(LOG, "a", encoding="utf-8") as log:
        log.write("\t".join(row) + "\n")
