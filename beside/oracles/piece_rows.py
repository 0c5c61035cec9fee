"""What the rows `pieces` of crates/test_images print, by the machine of other_machine.py."""

import re
from collections import Counter

from other_machine import Broken, CannotMove, Machine, image_of

NAMES = {"LOAD": "Load", "STORE": "Store", "SWAP": "Swap", "CAS": "CompareSwap", "AOR": "FetchOr", "AADD": "FetchAdd",
         "FORK": "Fork", "PRINT": "Print", "FWAIT": "Wait", "FWAKE": "Wake", "FREQ": "Requeue", "FLOCK": "FutexLock",
         "FCMP": "FutexCompare", "RET": "Ret", "RETV": "RetValue", "DIE": "Die", "ENTRY": "Entry", "PENDING": "Pending",
         "CLEAR": "Clear", "LAST": "Last", "STRAY": "Stray", "KILL": "Kill"}
DOES = {"s": Machine.stray, "k": Machine.kill}


def rows_of(lines):
    """The rows `pieces`: the name, with which of the rows of that name it is; how many buckets there are; the digits of the
    image; the words behind."""
    rows, names = [], Counter()
    for name, *words in (line.split() for line in lines if line and not line.startswith("#")):
        if words[2:3] == ["pieces"]:
            rows.append(((name, names[name]), int(words[0]), words[1], words[3:]))
        names[name] += 1
    return rows


def expected(buckets, digits, words):
    """The lines that are printed of a row, behind its name."""
    machine, lines = Machine(image_of(bytes.fromhex(digits)), buckets), []
    for word in words:
        lines += lines_of(machine, word)
    return ["  " + line for line in lines]


def lines_of(machine, word):
    """Does what a word says; gives what is printed of it."""
    if word == "movers":
        return [f"{number} can move" for number in machine.movers()] or ["rest"]
    kind, number, _, most = re.fullmatch(r"([a-z]?)(\d+)(x(\d+))?", word).groups()
    number = int(number)
    if kind == "l":
        return [f"{number} took {machine.local_steps(number, int(most))} local steps"]
    if kind == "r":
        return [f"{number} can go on" if machine.can_step(number) else f"{number} CannotMove"]
    try:
        if kind:
            return shown(number, DOES[kind](machine, number))
        return steps_of(machine, number, int(most))
    except CannotMove:
        return [f"{number} CannotMove"]


def steps_of(machine, number, most):
    """Takes steps of a thread, up to one that is refused."""
    lines = []
    for _ in range(most):
        if not machine.can_step(number):
            return [*lines, f"{number} CannotMove"]
        try:
            if machine.is_local(number):
                machine.local_step(number)
            else:
                lines += shown(number, machine.shared_step(number))
        except Broken:
            return [*lines, f"{number} Broken"]
    return lines


def shown(number, event):
    name, value, woken, moved = event
    return [f"{number} {NAMES[name]} {value}", *(f"  woke {it}" for it in woken), *(f"  moved {it}" for it in moved)]


def sections(lines):
    """Where a file of stdout has the lines of each row, behind its name: those that begin with two spaces."""
    found, names, row = {}, Counter(), None
    for at, line in enumerate(lines):
        if not line.startswith("  "):
            row = line, names[line]
            names[line] += 1
            found[row] = slice(at + 1, at + 1)
        elif row is not None:
            found[row] = slice(found[row].start, at + 1)
    return found
