#!/usr/bin/env python3
"""Searches all schedules of images, after docs/searching.md and docs/machine.md.

    beside/oracles/image_search.py --rows [--states N] [--only WORD]
    beside/oracles/image_search.py [--states N] [--strays] [--kills K] [--exits linux] [--image] FILE..

It reads a text by assembly.py, takes steps by other_machine.py, and shares nothing with the crates. A state is kept where a
thread's next step is a shared one, or one by which it fails. Futex calls are taken whole; whoever sleeps on a word may be the
one that is woken or moved; a requeue acts whatever its word holds. Exits are taken alone as the page says.

Of each FILE, an assembly text or with --image an image, it says how many states there are; how many steps the shortest run
has that is stuck, by which a thread fails, or at whose end a step may not be, where there is one; and else, without strays,
whether a thread sleeps for good, and how many steps lead there. The steps of a fault and of an exit count too. Of a search
that comes to more than N states, 1,000,000 where it isn't said, it says that.

With --rows it searches the texts and images that rows of crates/test_commands explore, those that keep 10,000 states at most
where it isn't said, and says which rows have another verdict, another length of a run, another number of states, or came to
another number on the way. Where a row shows a run it may have more states: a run is shown only where the machine's own choice
of sleepers leads to its end, and else the search goes on.
"""

import argparse
import os
import sys
from collections import namedtuple
from itertools import combinations

sys.dont_write_bytecode = True

from assembly import image_of_text
from other_machine import AGAIN, ID, KILLED, PENDING, TAKES, Broken, Machine, Thread, image_of, process_word
from rows import rows_of

DATA = os.path.join(os.path.dirname(os.path.abspath(__file__)), "../../crates/test_commands")
# How many local steps a thread is taken on at once, at most.
MOST_AT_ONCE = 4096
# For how many states that are kept a search tells once how far it has come, in rows.
EACH = 2000
ADDRESS, PRINT, REQUEUE = 0x1B, 0x27, 0x2A
# What a search found: how many states, whether these are all, the verdict, how many steps lead there, how many of them are
# lines of a run, and who sleeps for good.
Found = namedtuple("Found", "states complete verdict steps lines sleepers", defaults=[None] * 4)


class Words(dict):
    """A memory: the words that were stored, of so many."""

    def __init__(self, items, size):
        super().__init__(items)
        self.size = size

    def __missing__(self, address):
        return 0

    def __len__(self):
        return self.size


class Chooser(Machine):
    """A machine with whole futex calls that chooses by a list of numbers, which grows where a choice is met."""

    def begin(self, choices):
        self.choices, self.ways, self.met = choices, [], 0

    def pick(self, ways):
        """One of so many ways."""
        if ways < 2:
            return 0
        if self.met == len(self.choices):
            self.choices.append(0)
        self.ways.append(ways)
        self.met += 1
        return self.choices[self.met - 1]

    def take(self, address, count):
        """Takes any of the sleepers of an address, so many where there are."""
        queue = sorted(self.queues.get(address, []))
        sets = list(combinations(queue, min(count, len(queue))))
        taken = sets[self.pick(len(sets))]
        for number in taken:
            self.rouse(number)
        return list(taken)

    def futex(self, thread, number, call, taken):
        """A whole call. A requeue that compared may act later, when its word holds something else."""
        differs = call != "wake" and self.words[taken[0]] != taken[-1]
        gives_up = differs and (call == "wait" or self.pick(2) == 0)
        event = AGAIN[call] if gives_up else getattr(self, call)(number, *taken)
        thread.operands[-len(taken):] = [event[1]]
        thread.place += 1
        return event


# A state is the number of its memory, how many were killed, where each thread sleeps or 0, and the number of what each
# thread's own state is.
class Search:
    """A search over the schedules of an image."""

    def __init__(self, image, strays=False, kills=0, linux=False):
        self.machine = Chooser(image, linux=linux)
        self.size, self.strays, self.kills = len(self.machine.words), strays, kills
        self.first = tuple((address, word) for address, word in enumerate(self.machine.words) if word)
        # Exits are taken alone, unless the code takes the address of an id word or a thread's next step sees it.
        self.alone = (ADDRESS, ID) not in self.machine.code
        # The memories and the threads' own states, by their numbers; and which of these have a step that is a line.
        self.memories, self.locals, self.numbers, self.lines = [], [], {}, {}
        self.start = self.packed(self.machine.threads[0])

    # ---- Between states and the machine ----

    def numbered(self, found, items):
        number = self.numbers.setdefault(found, len(items))
        if number == len(items):
            items.append(found)
        return number

    def packed(self, thread):
        """The number of what a thread's own state is; in its exit only what that uses is left of it."""
        if thread.phase == "run":
            frames = tuple((place, tuple(locals)) for place, locals in thread.frames)
            found = "run", thread.place, tuple(thread.operands), tuple(thread.locals), frames
        elif thread.phase == "dying":
            found = "dying", thread.cause
        elif thread.phase == "entry":
            found = "entry", thread.entry, thread.walked
        else:
            found = (thread.phase,)
        return self.numbered(found, self.locals)

    def thread(self, number):
        phase, *rest = self.locals[number]
        if phase == "run":
            thread = Thread(rest[0], list(rest[1]))
            thread.locals, thread.frames = list(rest[2]), [(place, list(locals)) for place, locals in rest[3]]
            return thread
        thread = Thread(0, [])
        thread.phase = phase
        if phase == "dying":
            thread.cause = rest[0]
        elif phase == "entry":
            thread.entry, thread.walked = rest
        return thread

    def enter(self, state, number, choices):
        """The machine is at this state; of the threads only this one is there."""
        memory, _, places, locals = state
        machine = self.machine
        machine.words = Words(self.memories[memory], self.size)
        machine.asleep, machine.queues = {}, {}
        for sleeper, place in enumerate(places, 1):
            if place:
                machine.put(place, [sleeper])
        machine.threads = list(locals)
        machine.threads[number - 1] = self.thread(locals[number - 1])
        machine.begin(choices)
        return machine

    def leave(self, killed):
        """The state in which the machine is."""
        machine = self.machine
        words = tuple(sorted((address, word) for address, word in machine.words.items() if word))
        places = tuple(machine.asleep.get(number, 0) for number in range(1, len(machine.threads) + 1))
        locals = tuple(thread if isinstance(thread, int) else self.packed(thread) for thread in machine.threads)
        return self.numbered(words, self.memories), killed, places, locals

    # ---- Steps ----

    def run_on(self, number):
        """Takes a thread on by local steps, by none of which it fails."""
        thread = self.machine.threads[number - 1]
        try:
            for _ in range(MOST_AT_ONCE):
                if not self.machine.is_local(number):
                    return
                self.machine.local_step(number)
                if thread.phase != "run":
                    # A fault has changed nothing else.
                    thread.phase, thread.cause = "run", 0
                    return
        except Broken:
            return

    def leave_alone(self, number):
        """Takes a thread through the rest of its exit, where nobody would see it."""
        machine, thread = self.machine, self.machine.threads[number - 1]
        if (self.alone and thread.phase == "pending" and machine.words[process_word(number, PENDING)] == 0
                and process_word(number, ID) not in machine.asleep.values()):
            machine.words[process_word(number, ID)] = 0
            thread.phase = "ended"

    def own(self, state, number):
        """The states to which a thread's own next step leads."""
        choices, made = [], len(state[3])
        while True:
            machine = self.enter(state, number, choices)
            if machine.is_local(number):
                machine.local_step(number)
            else:
                thread = machine.threads[number - 1]
                wakes = thread.phase != "run" and machine.woken_word(thread, number) is not None
                machine.shared_step(number)
                self.run_on(number)
                if not wakes:
                    self.leave_alone(number)
                if len(machine.threads) > made:
                    self.run_on(made + 1)
            yield self.leave(state[1])
            ways = machine.ways
            while choices and choices[-1] + 1 == ways[len(choices) - 1]:
                choices.pop()
            if not choices:
                return
            choices[-1] += 1

    def outside(self, state, number):
        """The states to which what comes from outside to a thread leads."""
        _, killed, places, locals = state
        if self.strays and places[number - 1]:
            self.enter(state, number, []).rouse(number)
            yield self.leave(killed)
        if killed < self.kills and self.locals[locals[number - 1]][0] == "run":
            machine = self.enter(state, number, [])
            machine.kill(number)
            yield self.leave(killed + 1)

    def can_move(self, state, number):
        return not state[2][number - 1] and self.locals[state[3][number - 1]] != ("ended",)

    # ---- Looks at a state ----

    def verdict(self, state):
        """How a run ends that comes to a state, but for a step that may not be."""
        threads = range(1, len(state[3]) + 1)
        if any(self.locals[local][0] == "dying" and self.locals[local][1] != KILLED for local in state[3]):
            return "failed"
        if not any(self.can_move(state, number) for number in threads):
            if any(self.locals[local] != ("ended",) for local in state[3]):
                return "stuck"
        return None

    def is_line(self, state, number):
        """Whether a thread's next step is a line of a run: one of its exit isn't, nor a local one, by which it fails."""
        local = state[3][number - 1]
        if local not in self.lines:
            phase = self.locals[local][0]
            fails = phase == "run" and self.enter(state, number, []).is_local(number)
            self.lines[local] = phase in ("run", "dying") and not fails
        return self.lines[local]

    def used(self, state, number):
        """The words that a thread's next step uses, but for its own words of its exit."""
        machine = self.enter(state, number, [])
        thread = machine.threads[number - 1]
        if thread.phase == "run":
            opcode = machine.code[thread.place][0] if thread.place < len(machine.code) else 0
            if opcode < 0x20 or opcode not in TAKES or opcode == PRINT:
                return []
            return thread.operands[-TAKES[opcode]:][:2 if opcode == REQUEUE else 1]
        pending = machine.words[process_word(number, PENDING)]
        return {"entry": [thread.entry, thread.entry + 1], "pending": [pending + 1] if pending else []}.get(thread.phase, [])

    def is_apart(self, state):
        """Whether no thread's next step uses a word of an exit that was taken alone."""
        ended = [number for number, local in enumerate(state[3], 1) if self.locals[local] == ("ended",)]
        exits = {process_word(number, word) for number in ended for word in (PENDING, ID)}
        return not exits or not any(exits & set(self.used(state, number)) for number in range(1, len(state[3]) + 1)
                                    if self.can_move(state, number))

    # ---- The search ----

    def opening(self):
        """The first state."""
        self.enter((self.numbered(self.first, self.memories), 0, (0,), (self.start,)), 1, [])
        self.run_on(1)
        return self.leave(0)

    def run(self, most):
        """Searches breadth first, until an end is found."""
        found = self.try_run(most)
        if found is None:
            self.alone = False
            found = self.try_run(most)
        return found

    def try_run(self, most):
        """The same; None where a thread's next step sees an exit that was taken alone."""
        opening = self.opening()
        # Of each state how many steps lead there, and how many of these are lines of a run.
        self.depths, self.behind, self.told = {opening: (0, 0)}, {}, []
        kept = [opening]
        for looked, state in enumerate(kept, 1):
            if self.alone and not self.is_apart(state):
                return None
            depth, verdict = self.depths[state], self.verdict(state)
            if verdict:
                return Found(len(kept), True, verdict, *depth)
            own, nexts = [], []
            for number in range(1, len(state[3]) + 1):
                try:
                    after = list(self.own(state, number)) if self.can_move(state, number) else []
                except Broken:
                    return Found(len(kept), True, "broken", *depth)
                own += after
                line = self.is_line(state, number)
                nexts += [*((new, line) for new in after), *((new, 1) for new in self.outside(state, number))]
            self.behind[state] = own
            # The last ones are kept first. How many states are kept before an end is found depends on that, and nothing else.
            for after, line in reversed(nexts):
                if after not in self.depths:
                    if len(kept) == most:
                        return Found(most, False)
                    self.depths[after] = depth[0] + 1, depth[1] + line
                    kept.append(after)
            if len(kept) >= EACH * (len(self.told) + 1):
                self.told.append(f"explore: {len(kept)} states kept, {len(kept) - looked} yet to be looked at")
        if self.strays:
            return Found(len(kept), True)
        return self.told_sleepers(kept)

    def told_sleepers(self, kept):
        """Who sleeps for good in the first state in which anybody does: no own steps lead to where it is awake."""
        before = {state: [] for state in kept}
        for state in kept:
            for after in self.behind[state]:
                before[after].append(state)
        lost = {}
        for number in range(1, max(len(state[3]) for state in kept) + 1):
            left = [state for state in kept if len(state[3]) < number or not state[2][number - 1]]
            able = set(left)
            while left:
                for state in before[left.pop()]:
                    if state not in able:
                        able.add(state)
                        left.append(state)
            for state in kept:
                if state not in able:
                    lost.setdefault(state, []).append(number)
        first = next((state for state in kept if state in lost), None)
        if first is None:
            return Found(len(kept), True, sleepers=())
        return Found(len(kept), True, None, *self.depths[first], tuple(lost[first]))


def searched(found):
    """A line that tells what was found."""
    if not found.complete:
        return f"{found.states} states, not all"
    if found.verdict:
        return f"{found.states} states, {found.verdict} after {found.steps} steps"
    if found.sleepers:
        return f"{found.states} states, sleeps for good after {found.steps} steps: {' '.join(map(str, found.sleepers))}"
    return f"{found.states} states, none" + ("" if found.sleepers is None else ", nobody sleeps for good")


# ---- Rows ----

def words_of(row):
    """The options of a row that explores a text or an image; None of another one."""
    words = " ".join(row.lines.get("words", [])).split()
    if words[:1] != ["explore"] or not {"--assembly", "--image"} & set(words) or not row.program:
        return None
    parser = argparse.ArgumentParser(exit_on_error=False, add_help=False)
    parser.add_argument("--states", type=int, default=1000000)
    parser.add_argument("--kills", type=int, default=0)
    parser.add_argument("--exits", choices=["linux", "machine"])
    for word in ("--strays", "--image", "--assembly", "--hints"):
        parser.add_argument(word, action="store_true")
    parser.add_argument("file")
    try:
        words, others = parser.parse_known_args(words[1:])
    except argparse.ArgumentError:
        return None
    return None if others or words.image and words.assembly else words


def is_said(row, found, told):
    """Whether a row says this: the verdict, the length of the run, how many states there are, and how far it came."""
    output, errors = row.lines.get("output", []), row.lines.get("errors", [])
    status = int(row.lines.get("status", ["0"])[0])
    if [line for line in errors if line.startswith("explore: ")] != told or not output:
        return False
    if not found.complete:
        return output[0] == f"{found.states} states, not all" and status == 4
    states = int(output[0].removesuffix(" states"))
    run = [line for line in output if line[:1].isdigit() and not line.endswith("states") and "may not be" not in line]
    if len(run) != (found.lines or 0) or states < found.states or not found.verdict and states > found.states:
        return False
    if found.verdict:
        return output[1] == found.verdict and status == {"stuck": 3}.get(found.verdict, 7)
    if found.sleepers:
        return f"sleeps for good: {' '.join(map(str, found.sleepers))}" in output and status == 7
    return ("no thread sleeps for good" in output) == (found.sleepers is not None) and status == 0


def compare_rows(most, only):
    """Compares the rows of crates/test_commands, and answers how many differ."""
    count, cut, differ = 0, 0, 0
    with open(os.path.join(DATA, "stdin"), encoding="latin-1") as file:
        names = file.read().split()
    for name in names:
        with open(os.path.join(DATA, "data", name), encoding="latin-1", newline="\n") as file:
            rows = rows_of(file.read().split("\n")[:-1])
        for row in rows:
            words, said = words_of(row), row.lines.get("output", [""])[0].split(" ")
            chosen = not only or any(word in row.name for word in only)
            if words is None or not chosen or said[1:2] not in (["states"], ["states,"]):
                continue
            if int(said[0]) > most:
                cut += 1
                continue
            data = row.program.encode("latin-1") if words.image else image_of_text(row.program)
            search = Search(image_of(data), words.strays, words.kills, words.exits == "linux")
            found = search.run(words.states)
            count += 1
            if not is_said(row, found, search.told):
                differ += 1
                print(f"{name}:{row.first + 1}: {row.name}: {searched(found)}", flush=True)
    print(f"{count} rows compared, {differ} differ; {cut} have more than {most} states")
    return differ


def main():
    parser = argparse.ArgumentParser(usage=__doc__)
    parser.add_argument("--states", type=int)
    parser.add_argument("--kills", type=int, default=0)
    parser.add_argument("--exits", choices=["linux"])
    for word in ("--strays", "--image", "--rows"):
        parser.add_argument(word, action="store_true")
    parser.add_argument("--only", action="append", default=[])
    parser.add_argument("files", nargs="*")
    words = parser.parse_args()
    if words.rows:
        sys.exit(1 if compare_rows(words.states or 10000, words.only) else 0)
    for name in words.files:
        with open(name, "rb") as file:
            data = file.read()
        image = image_of(data if words.image else image_of_text(data.decode("latin-1")))
        found = Search(image, words.strays, words.kills, words.exits == "linux").run(words.states or 1000000)
        print(f"{name}: {searched(found)}", flush=True)


if __name__ == "__main__":
    main()
