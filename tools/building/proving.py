"""Proves crates side by side, each after those that it uses, and tells how far that is."""
from __future__ import annotations

import re
import signal
import sys
import time
from dataclasses import dataclass

from building import Failure
from building.costs import Plan, PROGRAM, free_memory
from building.crates import Crate, digest
from building.kit import PROVED, Kit
from building.processes import Ended, Group
from building.store import Store, read_text, write_text

# How long between two looks at what has ended, and between two lines where no crate ends.
LOOK, TELL = 0.1, 60.0
# What weighs against the first crates' seconds where it is judged how fast this machine is.
PRIOR = 60.0
# How many lines are shown of what refused a crate, and which these are.
LAST = 20
REFUSAL = re.compile(r"fn \S+: (not proved|no proof|could not tell)|\S+:\d+:\d+:? error|error|rattle: ")


def tell(line: str) -> None:
    """A line to the person who waits."""
    print(f"mesamon: {line}", file=sys.stderr, flush=True)


def minutes(seconds: float) -> str:
    """So many minutes, in words."""
    return f"{round(seconds / 60)} min" if seconds >= 90 else "1 min" if seconds >= 45 else f"{seconds:.0f} s"


@dataclass
class Work:
    """A crate that is being proved."""

    crate: Crate
    jobs: int
    began: float


class Proving:
    """The crates of one build that are left, that run and that are done."""

    def __init__(self, store: Store, kit: Kit, plan: Plan, digests: dict[str, str], keys: dict[str, str], left: set[str]) -> None:
        self.store, self.kit, self.plan, self.digests, self.keys, self.left = store, kit, plan, digests, keys, left
        self.crates = {crate.name: crate for crate in plan.crates}
        self.done = {name for name in self.crates if name not in left}
        self.running: dict[int, Work] = {}
        self.killed: set[str] = set()
        self.began = self.told = time.monotonic()
        self.expected = self.passed = PRIOR

    def run(self, group: Group) -> None:
        """Proves all that is left, or fails with the first crate that is refused."""
        self.begin_all(group)
        while self.running:
            ended = group.ended(False)
            if ended is None:
                time.sleep(LOOK)
            else:
                self.end(self.running.pop(ended.process), ended)
                self.begin_all(group)
            if ended is not None or time.monotonic() - self.told > TELL:
                self.tell_state()

    def jobs(self) -> dict[str, int]:
        """The jobs of each crate that runs."""
        return {work.crate.name: work.jobs for work in self.running.values()}

    def begin_all(self, group: Group) -> None:
        """Begins what can begin."""
        while self.left:
            found = self.choose()
            if found is None:
                return
            self.begin(group, *found)

    def choose(self) -> tuple[str, int] | None:
        """The crate to begin now, and its jobs. One that was killed for memory gets another try, with nothing beside it."""
        if self.killed and self.running:
            return None
        found = (min(self.killed), 1) if self.killed else self.plan.next(self.left, self.done, self.jobs())
        jobs = self.jobs_that_fit(*found) if found else 0
        return (found[0], jobs) if found and jobs else None

    def begin(self, group: Group, name: str, jobs: int) -> None:
        """Begins a crate."""
        crate = self.crates[name]
        self.stop_on_change(crate)
        self.left.remove(name)
        self.store.forget(name)
        work = Work(crate, jobs, time.monotonic())
        words = self.kit.prove(crate, self.store.folder, jobs)
        self.running[group.start(words, crate.folder, self.store.path(name, "log"))] = work

    def stop_on_change(self, crate: Crate) -> None:
        """Fails where the crate's key is of other sources than stand now."""
        if digest(crate) != self.digests[crate.name]:
            raise Failure(f"the sources of {crate.name} have changed since the build began: begin once more")

    def jobs_that_fit(self, name: str, jobs: int) -> int:
        """How many of these jobs there is memory for now. Where nothing runs that could give some back, one is the least."""
        free, cost = free_memory(), self.plan.costs[name]
        while jobs and cost.need(jobs) > free:
            jobs -= 1
        if not jobs and not self.running:
            raise Failure(short_of_memory(name, cost.need(1), free))
        return jobs

    def end(self, work: Work, ended: Ended) -> None:
        """Notes a proof, or fails."""
        name = work.crate.name
        log = self.store.path(name, "log")
        if ended.status == -signal.SIGKILL and name not in self.killed:
            tell(f"the check of {name} was killed, most likely for memory: once more, with nothing beside it")
            self.killed.add(name)
            self.left.add(name)
            return
        said = (read_text(log) or "").rstrip("\n").split("\n")
        if ended.status or not PROVED.fullmatch(said[-1]):
            by = f", and its check was ended by signal {-ended.status}" if ended.status < 0 else ""
            raise Failure(f"the crate {name} is not proved{by}: so nothing was built (all that was said of it: {log})",
                          tuple(refusals(said)))
        self.stop_on_change(work.crate)
        self.killed.discard(name)
        self.store.note_cost(name, ended.seconds, ended.megabytes, work.jobs)
        self.store.share_copies(name)
        write_text(self.store.path(name, "key"), self.keys[name])
        self.done.add(name)
        self.expected += self.plan.costs[name].time(work.jobs)
        self.passed += time.monotonic() - work.began

    def seconds_left(self) -> float:
        """How long the rest takes by the table, at the pace so far."""
        now = time.monotonic()
        running = {work.crate.name: (work.jobs, (now - work.began) * self.expected / self.passed)
                   for work in self.running.values()}
        seconds, _ = self.plan.simulate(self.left, running)
        if any(crate.is_program for crate in self.plan.crates):
            seconds += self.plan.costs[PROGRAM].seconds
        return seconds * self.passed / self.expected

    def tell_state(self) -> None:
        """Tells what is done, and what is left."""
        self.told = time.monotonic()
        names = ", ".join(sorted(work.crate.name for work in self.running.values()))
        tell(f"{len(self.done)} of {len(self.crates)} crates proved, {minutes(self.told - self.began)} gone, some "
             f"{minutes(self.seconds_left())} left" + (f"; at work on {names}" if names else ""))


def refusals(said: list[str]) -> list[str]:
    """The lines of a check that say what it refused, if there are such, or else its last ones."""
    return [line for line in said if REFUSAL.match(line)][:LAST] or said[-LAST:]


def short_of_memory(name: str, need: int, free: int) -> str:
    """Says that there isn't memory for one crate."""
    return (f"the crate {name} takes some {need / 1000:.1f} GB of memory to prove, and {free / 1000:.1f} GB are free. "
            "./mesamon --unproved WORD.. needs less, and proves nothing")
