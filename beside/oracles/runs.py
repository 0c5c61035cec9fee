"""Runs of an image on the machine of other_machine.py after docs/runs.md, and the lines of logs and accounts."""

import copy
import re

from other_machine import OUTSIDE, WORDS, CannotMove, Machine, process_word, signed

# The local steps of an entry of a run in order, and the most threads of a log, whatever its image's version.
TURN, THREADS = 256, 1000
OUTCOME, RETURNED = 5, 16
STATUS = {"Done": 0, "Stuck": 3, "Limit": 4}
NUMBER = r"(\d+)"
LINE = re.compile(rf"{NUMBER} {NUMBER} ([A-Z]+) (-?\d+)((?: woke(?: \d+)+)?)((?: moved(?: \d+)+)?)", re.ASCII)
NAMES = ["TURN", "LOAD", "STORE", "SWAP", "CAS", "AOR", "AADD", "FORK", "PRINT", "FWAIT", "FWAKE", "FREQ", "RET",
         "RETV", "DIE", "ENTRY", "PENDING", "CLEAR", "LAST", "STRAY", "KILL", "FLOCK", "FCMP"]
DOES = {"": Machine.step, "s": Machine.stray, "k": Machine.kill}


# ---- In order ----

def in_order(machine, limit):
    """The entries of a run in order, each as it is made."""
    refused, left, goes_on = set(), limit, True
    # The buckets that threads want which run: that changes by their own steps alone.
    wanted = {}
    while goes_on:
        goes_on = False
        for number, thread in enumerate(machine.threads, 1):
            if number in refused or not machine.can_move(number) or wanted.get(number) in machine.holders:
                continue
            wanted[number] = bucket = held_bucket(machine, number)
            if bucket is not None:
                wanted[number] = bucket if thread.phase == "run" else None
                continue
            if left <= TURN and cost_beforehand(machine, number) > left:
                refused.add(number)
                continue
            entry = next_entry(machine, number)
            left, goes_on = left - cost_of(entry), True
            yield entry


def next_entry(machine, number):
    """Takes the next entry of a thread."""
    count = machine.local_steps(number, TURN)
    return number, count, None if machine.is_local(number) else machine.shared_step(number)


def cost_of(entry):
    """The steps of an entry."""
    return entry[1] + (entry[2] is not None)


def tried(machine, number, look):
    """What a look at the machine says behind the local steps of a thread's next entry, which aren't taken."""
    thread = machine.threads[number - 1]
    machine.threads[number - 1] = copied(thread)
    try:
        return look(machine.local_steps(number, TURN))
    finally:
        machine.threads[number - 1] = thread


def copied(thread):
    """A thread by itself, with nothing in it that another one has."""
    other = copy.copy(thread)
    other.operands, other.locals, other.held = list(thread.operands), list(thread.locals), list(thread.held)
    other.frames = [(place, list(locals)) for place, locals in thread.frames]
    return other


def held_bucket(machine, number):
    """The bucket that is held and in the way of a thread's next entry, if one is."""
    if not machine.holders:
        return None
    bucket = tried(machine, number, lambda _: None if machine.is_local(number) else machine.wanted(number))
    return bucket if bucket in machine.holders else None


def cost_beforehand(machine, number):
    """The steps of a thread's next entry."""
    return tried(machine, number, lambda count: count + (not machine.is_local(number)))


# ---- By a seed ----

def numbers(seed):
    """The numbers of SplitMix64."""
    while True:
        seed = (seed + 0x9E3779B97F4A7C15) % 2**64
        z = (seed ^ seed >> 30) * 0xBF58476D1CE4E5B9 % 2**64
        z = (z ^ z >> 27) * 0x94D049BB133111EB % 2**64
        yield z ^ z >> 31


def by_seed(machine, limit, seed, strays, kills):
    """The entries of a run by a seed, each as it is made, with a wake in so many entries, and so many kills at most."""
    drawn, left = numbers(seed), limit
    every = 2 ** (1 + next(drawn) % 12) if kills else 0
    refused, passed = set(), set()
    while True:
        able = [number for number in range(1, len(machine.threads) + 1)
                if machine.can_move(number) and number not in refused and number not in passed]
        if not able:
            return
        entry = None
        if strays and next(drawn) % strays == 0 and machine.asleep and left:
            number = drawn_of(sorted(machine.asleep), drawn)
            entry = number, 0, machine.stray(number)
        elif kills and next(drawn) % every == 0 and left and (living := living_threads(machine, refused)):
            number, kills = drawn_of(living, drawn), kills - 1
            entry = number, 0, machine.kill(number)
        else:
            number = drawn_of(able, drawn)
            if held_bucket(machine, number) is not None:
                passed.add(number)
            elif left <= TURN and cost_beforehand(machine, number) > left:
                refused.add(number)
            else:
                entry = next_entry(machine, number)
        if entry is not None:
            left, passed = left - cost_of(entry), set()
            yield entry


def drawn_of(threads, drawn):
    return threads[next(drawn) % len(threads)]


def living_threads(machine, refused):
    return [number for number, thread in enumerate(machine.threads, 1) if thread.phase == "run" and number not in refused]


# ---- By schedules and logs ----

def turns_of(text):
    """The turns of a schedule: what is done, and the thread; ValueError where a word is none."""
    turns = [re.fullmatch(r"([sk]?)(\d+)", word, re.ASCII) for word in text.split()]
    if None in turns:
        raise ValueError
    return [(turn[1], int(turn[2])) for turn in turns]


def by_schedule(machine, turns):
    """The entries of a schedule, each as it is made; CannotMove where a turn is refused."""
    for does, number in turns:
        if does:
            yield number, 0, DOES[does](machine, number)
            continue
        if not machine.can_step(number):
            raise CannotMove
        if machine.is_local(number):
            machine.local_step(number)
            yield number, 1, None
        else:
            yield number, 0, machine.shared_step(number)


def by_entry(machine, entry):
    """The entry that comes of one of a log, whose values aren't compared; CannotMove where it can't be taken."""
    number, count, event = entry
    if event is not None and event[0] in OUTSIDE:
        if count:
            raise CannotMove
        return number, 0, OUTSIDE[event[0]](machine, number)
    if not machine.can_move(number) or machine.local_steps(number, count) < count:
        raise CannotMove
    if event is None:
        return number, count, None
    if machine.is_local(number):
        raise CannotMove
    return number, count, machine.shared_step(number)


def line_of(entry):
    """The line of an entry, without its end."""
    number, count, event = entry
    if event is None:
        return f"{number} {count} TURN 0"
    name, value, woken, moved = event
    parts = [number, count, name, signed(value) if name == "PRINT" else value]
    for word, threads in (("woke", woken), ("moved", moved)):
        parts += [word, *threads] if threads else []
    return " ".join(map(str, parts))


def entry_of(line):
    """The entry of a line without its end, or None where it is no entry's."""
    found = LINE.fullmatch(line)
    if not found or found.group(3) not in NAMES:
        return None
    number, count, name, value, woken, moved = found.groups()
    number, count, value = int(number), int(count), int(value)
    sets = [tuple(map(int, threads.split()[1:])) for threads in (woken, moved)]
    rises = all(list(threads) == sorted(set(threads)) and threads[-1:] <= (THREADS,) for threads in sets)
    if name == "TURN":
        entry = (number, count, None)
    else:
        entry = (number, count, (name, value % WORDS, *sets))
    fits = max(number, count) < WORDS and -WORDS // 2 <= value < WORDS
    return entry if rises and fits and line_of(entry) == line else None


# ---- Accounts ----

def account(machine):
    """The lines of a run's end: its verdict, who aborted, and where it is stuck who sleeps."""
    verdict, lines = machine.verdict(), []
    if verdict != "Done":
        lines.append(verdict.lower())
    for number, _thread in enumerate(machine.threads, 1):
        outcome = machine.words[process_word(number, OUTCOME)]
        if outcome not in (0, RETURNED):
            lines.append(f"process {number} aborted: fault {outcome}")
        if verdict == "Stuck" and number in machine.asleep:
            lines.append(f"process {number} sleeps on word {machine.asleep[number]}")
    return lines
