"""What each crate is likely to take, the processors and the memory that there are, and the order that follows."""
from __future__ import annotations

import os
import re
from dataclasses import dataclass

from building.crates import PARTS, Crate

TABLE = f"{os.path.dirname(os.path.dirname(os.path.realpath(__file__)))}/seconds.txt"
# The table's name for the work behind the proofs: compiling by LLVM, linking and the trial run.
PROGRAM = "(program)"
# Of a crate that the table lacks: a lane's memory, and seconds by its lines of code and of specs and proofs.
MEMORY = 2_500
FIXED, EACH_LINE, EACH_PROOF_LINE = 5.0, 0.09, 0.002
# What a check takes above what it took when it was measured.
MARGIN = 1.05
# At most so many jobs for one crate, and one where it takes few seconds; what each beyond the first adds to its memory and
# to its processor seconds, and takes from its time.
MOST_JOBS, FEW_SECONDS = 4, 60.0
JOB_MEMORY, JOB_WORK, JOB_TIME = 0.6, 0.1, 0.08
# A control group's limits, in its two versions: of memory and what is held of it, and of the processors' time.
GROUP_MEMORY = (("/sys/fs/cgroup/memory.max", "/sys/fs/cgroup/memory.stat", r"(?m)^anon (\d+)"),
                ("/sys/fs/cgroup/memory/memory.limit_in_bytes", "/sys/fs/cgroup/memory/memory.stat", r"(?m)^total_rss (\d+)"))
GROUP_TIME = (("/sys/fs/cgroup/cpu.max", "/sys/fs/cgroup/cpu.max", r" (\d+)"),
              ("/sys/fs/cgroup/cpu/cpu.cfs_quota_us", "/sys/fs/cgroup/cpu/cpu.cfs_period_us", r"(\d+)"))


@dataclass(frozen=True)
class Cost:
    """Seconds of one processor, and megabytes at the most."""

    seconds: float
    megabytes: int

    def need(self, jobs: int) -> int:
        """How many megabytes to keep free for so many jobs."""
        return int(self.megabytes * MARGIN * (1 + JOB_MEMORY * (jobs - 1)))

    def time(self, jobs: int) -> float:
        """How many seconds pass with so many jobs."""
        return self.seconds * (1 - JOB_TIME * (jobs - 1))


def number_in(file: str, pattern: str) -> int | None:
    """The number that the pattern finds in the file, if there is one."""
    try:
        with open(file, encoding="utf-8") as text:
            found = re.search(pattern, text.read())
    except OSError:
        return None
    return int(found[1]) if found else None


def processors() -> int:
    """How many processors there are to use; MESAMON_JOBS says another number."""
    said = os.environ.get("MESAMON_JOBS", "")
    if said.isdigit() and int(said):
        return int(said)
    found = len(os.sched_getaffinity(0))
    for file, period_file, pattern in GROUP_TIME:
        quota, period = number_in(file, r"^(\d+)"), number_in(period_file, pattern)
        if quota and period:
            found = min(found, max(quota // period, 1))
    return found


def free_memory() -> int:
    """How many megabytes are free; MESAMON_MEMORY says another number."""
    said = os.environ.get("MESAMON_MEMORY", "")
    if said.isdigit():
        return int(said)
    found = [(number_in("/proc/meminfo", r"MemAvailable:\s+(\d+)") or 0) // 1000]
    for limit_file, held_file, pattern in GROUP_MEMORY:
        limit, held = number_in(limit_file, r"^(\d+)"), number_in(held_file, pattern)
        if limit and held is not None:
            found.append((limit - held) // 1_000_000)
    return min(found)


def read_table(file: str = TABLE) -> dict[str, Cost]:
    """The measured costs: a line for each crate, with its seconds and megabytes, and its jobs where it had several."""
    costs = {}
    if os.path.isfile(file):
        with open(file, encoding="utf-8") as text:
            for line in text:
                words = line.partition("#")[0].split()
                if len(words) in (3, 4):
                    jobs = int(words[3]) if len(words) == 4 else 1
                    costs[words[0]] = Cost(float(words[1]) / (1 + JOB_WORK * (jobs - 1)), int(words[2]))
    return costs


def count_lines(crate: Crate, parts: tuple[str, ...]) -> int:
    """How many lines these parts of the crate have."""
    found = 0
    for part in parts:
        for at, _, files in os.walk(f"{crate.folder}/{part}"):
            for name in files:
                with open(f"{at}/{name}", "rb") as source:
                    found += source.read().count(b"\n")
    return found


def guessed(crate: Crate) -> Cost:
    """What a crate is likely to take that wasn't measured."""
    code, proofs = count_lines(crate, PARTS[:1]), count_lines(crate, PARTS[1:])
    return Cost(FIXED + EACH_LINE * code + EACH_PROOF_LINE * proofs, MEMORY)


def costs_of(crates: list[Crate]) -> dict[str, Cost]:
    """What each of these crates is likely to take, and the program behind them."""
    table = read_table()
    costs = {crate.name: table.get(crate.name) or guessed(crate) for crate in crates}
    costs[PROGRAM] = table.get(PROGRAM, Cost(150, 2_000))
    return costs


class Plan:
    """Which crate begins next, and with how many jobs: the one with the longest chain of others behind it goes first."""

    def __init__(self, crates: list[Crate], costs: dict[str, Cost], lanes: int, memory: int) -> None:
        self.crates, self.costs, self.lanes, self.memory = crates, costs, lanes, memory
        self.behind = {crate.name: 0.0 for crate in crates}
        for crate in reversed(crates):
            self.behind[crate.name] += costs[crate.name].seconds
            for used in crate.uses:
                self.behind[used] = max(self.behind[used], self.behind[crate.name])

    def ready(self, left: set[str], done: set[str]) -> list[str]:
        """The crates that can begin, the one with the longest chain behind it first."""
        found = [crate.name for crate in self.crates if crate.name in left and done.issuperset(crate.uses)]
        return sorted(found, key=lambda name: -self.behind[name])

    def free(self, running: dict[str, int]) -> tuple[int, int]:
        """How many lanes and megabytes those leave that run, each with its jobs. Several jobs keep some two busy."""
        lanes = self.lanes - sum(min(jobs, 2) for jobs in running.values())
        return lanes, self.memory - sum(self.costs[name].need(jobs) for name, jobs in running.items())

    def next(self, left: set[str], done: set[str], running: dict[str, int]) -> tuple[str, int] | None:
        """The crate that begins now, with how many jobs, if one can."""
        lanes, memory = self.free(running)
        fitting = [name for name in self.ready(left, done) if self.costs[name].need(1) <= memory]
        if lanes < 1 or not fitting:
            return None
        name = fitting[0]
        is_longest = len(fitting) == 1 and all(self.behind[name] >= self.behind[other] for other in running)
        jobs = min(MOST_JOBS, lanes) if is_longest and self.costs[name].seconds > FEW_SECONDS else 1
        while jobs > 1 and self.costs[name].need(jobs) > memory:
            jobs -= 1
        return name, jobs

    def simulate(self, left: set[str], running: dict[str, tuple[int, float]]) -> tuple[float, int]:
        """The seconds until all are proved, and the megabytes held at the most. What runs has its jobs and its seconds."""
        left, jobs_of, ends, now, most = set(left), {}, {}, 0.0, 0
        for name, (jobs, passed) in running.items():
            jobs_of[name], ends[name] = jobs, max(self.costs[name].time(jobs) - passed, 5.0)
        done = {crate.name for crate in self.crates} - left - set(jobs_of)
        while left or jobs_of:
            while found := self.next(left, done, jobs_of):
                name, jobs_of[found[0]] = found
                left.remove(name)
                ends[name] = now + self.costs[name].time(found[1])
            most = max(most, self.memory - self.free(jobs_of)[1])
            if not jobs_of:
                break
            name = min(jobs_of, key=lambda each: ends[each])
            now = ends[name]
            del jobs_of[name]
            done.add(name)
        return now, most
