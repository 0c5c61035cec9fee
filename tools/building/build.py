"""Builds a program from what is kept and what is still to be proved."""
from __future__ import annotations

import os
import shutil
import subprocess
import time

from building import Failure
from building.costs import PROGRAM, Plan, costs_of, free_memory, processors
from building.crates import digest, keys_of
from building.kit import Kit
from building.processes import Ended, Group, Interrupted, end_by, raise_on_signals
from building.program import Program
from building.proving import LAST, Proving, minutes, short_of_memory, tell
from building.store import HOME, Store, read_text, remove, write_text

# The part of the help that isn't the program's but the script's.
SCRIPT = "SCRIPT"


def build(root: str, name: str, words: list[str]) -> None:
    """Builds the program. A signal ends this process, and all that was started ends with it."""
    store, kit = Store(root), Kit.found()
    raise_on_signals()
    try:
        with store.locked():
            # Another build may have made it in the meantime, and sources may have changed.
            program = Program(root, name)
            if not program.is_new():
                group = Group(store.make_work())
                try:
                    Build(program, store, kit, group).run(words)
                finally:
                    group.kill()
    except Interrupted as interrupted:
        tell("interrupted; what is proved is kept")
        end_by(interrupted.number)


class Build:
    """One build: what is kept of earlier ones, what is to be proved, and the program that comes of it."""

    def __init__(self, program: Program, store: Store, kit: Kit, group: Group) -> None:
        self.program, self.store, self.kit, self.group = program, store, kit, group
        self.moment = time.time()
        self.version = subprocess.run([f"{program.root}/tools/source_version"], stdout=subprocess.PIPE, text=True, check=True).stdout
        self.digests = {crate.name: digest(crate) for crate in program.below}
        self.keys = keys_of(program.below, self.digests, kit.identity())
        self.key = self.keys[program.name]

    def run(self, words: list[str]) -> None:
        """Builds the program, or takes it where it was built of the same sources."""
        is_program = self.program.crate.is_program
        if not self.is_built():
            self.prove()
            if is_program:
                self.compile()
        if is_program:
            self.try_out(words)
            self.put()
        self.store.drop_work()

    def is_built(self) -> bool:
        """Whether a program of these sources is in the store."""
        path = self.store.path
        return read_text(path(self.program.name, "built")) == self.key and os.path.isfile(path(self.program.name, "program"))

    def left(self) -> set[str]:
        """The crates that are to be proved: each that isn't kept, and each above one of those."""
        left: set[str] = set()
        for crate in self.program.below:
            if not self.store.has_proved(crate.name, self.keys[crate.name]) or left.intersection(crate.uses):
                left.add(crate.name)
        return left

    def prove(self) -> None:
        """Proves what is left."""
        left = self.left()
        if left:
            plan = Plan(self.program.below, costs_of(self.program.below), processors(), free_memory())
            announce(plan, left, self.program.crate.is_program)
            Proving(self.store, self.kit, plan, self.digests, self.keys, left).run(self.group)

    def step(self, words: list[str], what: str) -> Ended:
        """Runs a command that follows the proofs."""
        log = self.store.path(self.program.name, "log")
        ended = self.group.run(words, self.program.crate.folder, log)
        if ended.status:
            said = (read_text(log) or "").rstrip("\n").split("\n")
            raise Failure(f"{what} failed (all that was said: {log})", tuple(said[-LAST:]))
        return ended

    def compile(self) -> None:
        """Compiles and links what was proved."""
        name, store = self.program.name, self.store
        made, linked = store.path(name, "o"), store.path(name, "program.part")
        tell("compiling the program")
        remove(store.path(name, "built"))
        ended = self.step(self.kit.compile(self.program.crate, store.folder, made), "LLVM's part")
        self.step(self.kit.link(made, linked), "linking")
        if name == HOME:
            store.note_cost(PROGRAM, ended.seconds, ended.megabytes)
        os.replace(linked, store.path(name, "program"))
        write_text(store.path(name, "built"), self.key)

    def try_out(self, words: list[str]) -> None:
        """Runs the program on the words of the trial."""
        log = f"{self.program.out}/run.log"
        os.makedirs(self.program.out, exist_ok=True)
        ended = self.group.run([self.store.path(self.program.name, "program"), *words], self.program.crate.folder, log)
        if ended.status:
            raise Failure(f"the trial run `{' '.join(words)}` ended with status {ended.status} (what it wrote: {log})",
                          tuple((read_text(log) or "").split("\n")[-LAST:]))

    def put(self) -> None:
        """Puts the program in its place, with what it was built of."""
        program = self.program
        shutil.copy(self.store.path(program.name, "program"), f"{program.made}.part")
        os.replace(f"{program.made}.part", program.made)
        write_text(program.built, f"{self.version.strip()}\n{self.kit.version()}\n")
        self.compare_help()
        write_text(program.begun, "")
        os.utime(program.begun, (self.moment, self.moment))

    def compare_help(self) -> None:
        """Says where what ./mesamon tells of a command, before it is built, isn't what the program says."""
        texts = f"{self.program.root}/tools/help"
        names = [name for name in sorted(os.listdir(texts)) if name != SCRIPT and self.program.name == HOME]
        others = [name for name in names if self.help_of(name) != read_text(f"{texts}/{name}")]
        if others:
            tell(f"tools/help isn't what the program says ({', '.join(others)}): tools/renew_help writes it anew")

    def help_of(self, name: str) -> str:
        """What the program says of a command, or of `all`."""
        words = [self.program.made, *([] if name == "all" else [name]), "--help"]
        how = {"stdin": subprocess.DEVNULL, "stdout": subprocess.PIPE, "stderr": subprocess.STDOUT}
        return subprocess.run(words, **how, text=True, check=False).stdout


def announce(plan: Plan, left: set[str], is_program: bool) -> None:
    """Says what the build is likely to take, and that there is a way without it."""
    largest = max(left, key=lambda name: plan.costs[name].need(1))
    if plan.costs[largest].need(1) > plan.memory:
        raise Failure(short_of_memory(largest, plan.costs[largest].need(1), plan.memory))
    seconds, most = plan.simulate(left, {})
    ample, wanted = Plan(plan.crates, plan.costs, plan.lanes, 1_000_000).simulate(left, {})
    more = plan.costs[PROGRAM].seconds if is_program else 0
    tell(f"proving {len(left)} of {len(plan.crates)} crates" + (" and building the program" if is_program else "")
         + f": some {minutes(seconds + more)} on {plan.lanes} processors, with up to {most / 1000:.1f} GB of memory")
    if seconds > 1.05 * ample:
        tell(f"{plan.memory / 1000:.1f} GB of memory are free, so fewer crates are proved at once; with "
             f"{wanted / 1000:.1f} GB it would take some {minutes(ample + more)}")
    if is_program:
        tell("./mesamon --unproved WORD.. runs the same from the sources in some minutes, and proves nothing")
