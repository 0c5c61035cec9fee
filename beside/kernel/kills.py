"""Judges the runs in which kills.h killed a process at one of its shared instructions.

What is behind the kill has to be what the machine's kill leaves, but for what KEPT says; and what the others do has to be
what they do in some run of the source in which that process is killed at that place, with nobody left asleep on a lock
without an owner.
"""

import os
import re
from collections import Counter, namedtuple

import source

ROOT = os.path.dirname(os.path.dirname(os.path.dirname(os.path.abspath(__file__))))
with open(os.path.join(ROOT, "include/mesa_monitors.h")) as header:
    POINTS = re.findall(r"\w+", re.search(r"enum mesa_point \{(.*?)\}", header.read(), re.S)[1].replace("MESA_", ""))
ENDED, KILLED = 16, 9

# What the machine's kill leaves, by the point before which the thread stands (or in which it sleeps). `pending`: what its
# pending entry is: none, a monitor that it owns, or one that it doesn't own. `listed`: whether the template's monitor is
# the first one on its robust list. `stand`: where its process stands in the source; the last column has the reason.
Row = namedtuple("Row", "pending listed stand reason")
ENTERS = Row("unowned", False, "takes", "it doesn't own the word: its pending step wakes one, to whom it hands its wake on")
TOOK = Row("owned", False, "took", "it owns the word, and only its pending entry tells so: that marks it as died")
LEAVES = Row("owned", True, "leaves", "the walk passes the pending entry over, and the pending step marks its word")
CUT = Row("owned", False, "leaves", "off the list, and still its owner: the pending step marks the word")
OWES = Row("unowned", False, "left", "given up: the pending step makes the wake that was owed")
INSIDE = Row("none", True, "inside", "nothing pending: the walk marks the word")
RAISED = Row("none", True, "raised", "as inside; who waits and doesn't sleep on the sequence word is resumed by the kill")
OUTSIDE = Row("none", False, "outside", "it holds nothing of the template's; who joins it is woken last")
TABLE = {
    "ENTER_PENDS": Row("none", False, "takes", "nothing pending yet: the walk alone"),
    "ENTER_TRIES": ENTERS, "TAKE_READS": ENTERS, "TAKE_MARKS": ENTERS, "TAKE_SLEEPS": ENTERS, "TAKE_TRIES": ENTERS,
    "GOT_READS": TOOK, "GOT_LINKS": TOOK, "GOT_HEADS": TOOK,
    "GOT_UNPENDS": Row("owned", True, "took", "the walk passes the pending entry over, and the pending step marks it"),
    "LEAVE_PENDS": Row("none", True, "leaves", "nothing pending yet: the walk marks the word"),
    "LEAVE_READS": LEAVES, "LEAVE_HEADS": LEAVES, "LEAVE_DROPS": CUT,
    "LEAVE_WAKES": OWES, "HAS_LEFT": OWES,
    "WAIT_READS": Row("none", True, "leaves", "nothing pending: the walk marks the word"),
    "WAIT_SLEEPS": Row("unowned", False, "takes", "given up: the pending step wakes one that sleeps on the lock word"),
    "NOTIFY_ADDS": INSIDE, "NOTIFY_WAKES": RAISED,
    "BROADCAST_ADDS": INSIDE, "BROADCAST_MARKS": RAISED, "BROADCAST_READS": RAISED, "BROADCAST_MOVES": RAISED,
    "JOIN_CLAIMS": OUTSIDE, "JOIN_READS": OUTSIDE, "JOIN_SLEEPS": OUTSIDE,
    "JOIN_LEARNS": OUTSIDE, "JOIN_TAKES": OUTSIDE,
}
# Where the kernel's exit isn't the machine's: at a pending entry whose word another thread owns it wakes nobody. Nothing is
# lost by it, since that word has the waiters bit, so that its owner owes the wake. And here a lock that was given up keeps
# the bit, so that `free` is the word without an owner and without the mark of a death.
KEPT = "the machine wakes one, the kernel nobody: another thread owns the word, with waiters"


# ---- The words behind ----

def judge_words(run):
    """What is wrong with the words behind a kill, and whether the kernel woke nobody where the machine wakes one."""
    row, victim, wrong, kept = TABLE[POINTS[run["points"][-1]]], run["process"], [], False
    before, after = run["before"]["monitors"], run["after"]["monitors"]
    pending, listed = run["pending"], run["list"]
    owned = pending >= 0 and before[pending][0] == victim
    if row.pending != ("none" if pending < 0 else "owned" if owned else "unowned"):
        wrong.append("its pending entry isn't the table's")
    if row.listed and not listed or not row.listed and pending in listed or row.listed and pending not in (-1, listed[0]):
        wrong.append("its list isn't the table's")
    for monitor, (owner, died, waiters, sleepers) in enumerate(before):
        sleepers -= monitor == pending and leaves_lock(run)
        dies = monitor in listed or monitor == pending and owned
        woken = min(sleepers, waiters if dies else int(monitor == pending))
        if dies != (owner == victim):
            wrong.append("it owns what is neither on its list nor pending")
        if monitor == pending and not dies and owner != 0 and woken > 0:
            kept, woken = True, 0
            wrong += [] if waiters else ["its pending entry's word has another owner, who doesn't know that some sleep"]
        expected = [0, 1, waiters, sleepers - woken] if dies else [owner, died, waiters, sleepers - woken]
        if after[monitor] != expected:
            wrong.append(f"monitor {monitor} is {after[monitor]}, not {expected}")
    if run["id"] != 0 or run["after"]["processes"][str(victim)] != KILLED:
        wrong.append("its id word or its outcome")
    return wrong + judge_woken(run, before, after), kept


def judge_woken(run, before, after):
    """Who doesn't sleep any more is who slept on a lock word that has fewer sleepers, or joined who was killed."""
    old, new, victim = run["before"]["processes"], run["after"]["processes"], str(run["process"])
    woken = {p: it[0] for p, it in old.items() if p != victim and sleeps(it) and new[p] != it}
    fewer = sum(one[3] - other[3] for one, other in zip(before, after))
    fewer -= leaves_lock(run)
    if any(POINTS[point] == "WAIT_SLEEPS" and old[p][1] == "sleeps" for p, point in woken.items()):
        return ["one that slept on a condition was woken"]
    locks = [p for p, point in woken.items() if POINTS[point] != "JOIN_SLEEPS"]
    return [] if len(locks) == fewer else [f"{len(locks)} were woken from the lock words, not {fewer}"]


def sleeps(stand):
    return isinstance(stand, list) and stand[1] != "stands"


def leaves_lock(run):
    """Whether who is killed sleeps on a lock word: it leaves its sleep, and nobody is woken for it."""
    stand = run["before"]["processes"][str(run["process"])]
    return sleeps(stand) and (POINTS[stand[0]] == "TAKE_SLEEPS" or stand[1] == "moved")


def judge_end(run):
    """What is wrong at the end: a wake that is lost."""
    return [f"a wake is lost: {sleepers} sleep on monitor {monitor}, which nobody owns"
            for monitor, (owner, _, _, sleepers) in enumerate(run["end"]["monitors"]) if owner in (0, 99) and sleepers]


# ---- The runs of the source ----

class Watched(source.State):
    """A state of a run in which one process is to be killed, once it has done so many of the actions that have a point,
    and stands as the table says. `fresh` tells what the last one was, until it does another step."""

    def __init__(self, program, process, done, stand, asleep):
        super().__init__(program)
        self.watched, self.wanted, self.done, self.fresh = process - 1, (done, stand, asleep), 0, None

    def copy(self):
        copy = super().copy()
        copy.watched, copy.wanted, copy.done, copy.fresh = self.watched, self.wanted, self.done, self.fresh
        return copy

    def key(self):
        return super().key() + (self.watched, self.done, self.fresh)

    def watched_actions(self, printed):
        for state in self.killed():
            yield from source.settled(state)
        for state in self.stepped(printed):
            yield from source.settled(state)

    def is_at(self):
        done, stand, _ = self.wanted
        at = self.processes[self.watched][0]
        if self.done != done:
            return False
        if stand in ("takes", "took", "left"):
            return (at in ("entering", "resuming", "waiting") if stand == "takes" else self.fresh == stand
                    or stand == "left" and at in ("waiting", "resuming"))
        if stand == "outside":
            return at in ("joining", "failing") or at == "before" and (self.step(self.watched)[0] in ("claim", "join")
                                                                       or self.fresh == "joined")
        kinds = ("wait", "return") if stand == "leaves" else ("notify", "broadcast")
        return at == "before" and self.step(self.watched)[0] in kinds

    def killed(self):
        if not self.is_at():
            return
        other, p = self.copy(), self.watched
        _, stand, asleep = self.wanted
        if stand == "raised":
            other.resume([q for q in self.waiters(self.step(p)[1]) if q + 1 not in asleep])
        other.die(p, KILLED)
        other.watched, other.done, other.fresh = None, 0, None
        yield other

    def after(self, fresh):
        """A copy, in which the process has done an action that has a point."""
        copy = self.copy()
        copy.done, copy.fresh = self.done + 1, fresh
        return copy

    def stepped(self, printed):
        """The states behind the next step of the process; a fault that comes of an action is a step of its own."""
        p = self.watched
        at, number, frames = self.processes[p]
        if at in ("entering", "resuming") and self.holders[number] <= source.FREE:
            other = self.after("took")
            other.take(p)
            if p in other.ends:
                del other.ends[p]
                other.holders, other.processes[p] = list(self.holders), ("failing", source.ABANDONED, frames)
                other.holders[number] = p + 1
            yield other
        elif at == "joining" and number in self.ends:
            other = self.after("joined")
            other.join(p, self.ends[number])
            if p in other.ends:
                del other.ends[p]
                other.holders, other.processes[p] = list(self.holders), ("failing", source.JOINED_ABORTED, frames)
            yield other
        elif at in ("failing", "left"):
            other = self.copy()
            other.fresh = None
            if at == "failing":
                other.die(p, number)
            else:
                other.go_back(p, number)
            yield other
        elif at == "before":
            yield from self.stepped_on(p, printed)

    def stepped_on(self, p, printed):
        step = self.step(p)
        kind = step[0]
        try:
            if kind in ("notify", "broadcast", "wait"):
                for resumed in self.choices(p):
                    other = self.after("left" if kind == "wait" else kind)
                    other.do_calm(p, resumed)
                    yield other
            elif kind == "return" and self.processes[p][2][0].role == "entry":
                other = self.after("left")
                _, _, frames = other.processes[p]
                other.holders[frames[0].monitor.number] = source.FREE
                other.processes[p] = ("left", 0 if step[1] is None else self.value(p, step[1]), frames)
                yield other
            else:
                other = self.after("claimed") if kind == "claim" else self.copy()
                other.fresh = None
                if not other.do_calm(p, []):
                    if kind == "print":
                        if printed[self.printed:self.printed + 1] != [self.value(p, step[1])]:
                            return
                        other.printed += 1
                        other.go_on(p)
                    elif kind == "fork":
                        other.fork(p, step)
                    else:
                        other.claim(p, step)
                yield other
        except source.Fault as fault:
            other = self.copy()
            other.fresh = None
            other.die(p, fault.args[0])
            yield other


def actions_done(names):
    """How many actions that have a point a process has done, which came to these points and not past the last one."""
    done = 0
    for before, name in zip([""] + names, names):
        done += name == "GOT_READS" or name == "JOIN_LEARNS"
        done += before == "LEAVE_DROPS"
        done += before in ("NOTIFY_WAKES", "BROADCAST_MOVES", "JOIN_CLAIMS")
    return done


def is_seen_end(state, printed, end):
    """Whether a state is an end that was seen: what was printed, who is over and how, where the others rest, and who holds
    each monitor that was entered."""
    if state.watched is not None or state.printed != len(printed) or len(state.processes) != len(end["processes"]):
        return False
    for p, (at, number, _) in enumerate(state.processes):
        seen = end["processes"][str(p + 1)]
        if isinstance(seen, int):
            ended = state.ends.get(p)
            if ended is None or (ENDED if ended[0] == "ended" else ended[1]) != seen:
                return False
        elif p in state.ends or at not in rests(seen):
            return False
        elif at in ("entering", "resuming") and state.holders[number] <= source.FREE:
            return False
    seen = [source.LEFT if died and owner == 0 else owner for owner, died, _, _ in end["monitors"]]
    return seen == state.holders[:len(seen)] and not any(state.holders[len(seen):])


def rests(seen):
    """Where in the source a process may rest that was seen asleep so."""
    if seen[1] == "moved":
        return ("resuming",)
    return {"JOIN_SLEEPS": ("joining",), "WAIT_SLEEPS": ("waiting",), "TAKE_SLEEPS": ("entering", "resuming")}.get(
        POINTS[seen[0]], ())


def judge_run(program, run, known):
    """Whether some run of the source does the same, with the process killed at the same place."""
    process, done, stand, asleep = None, 0, None, ()
    if run["killed"]:
        names = [POINTS[point] for point in run["points"]]
        process, done, stand = run["process"], actions_done(names), TABLE[names[-1]].stand
        asleep = tuple(int(p) for p, it in run["before"]["processes"].items()
                       if isinstance(it, list) and POINTS[it[0]] == "WAIT_SLEEPS" and it[1] == "sleeps")
    key = (process, done, stand, asleep if stand == "raised" else (), tuple(run["printed"]), str(run["end"]))
    if key not in known:
        first = Watched(program, *key[:4]) if run["killed"] else source.State(program)
        known[key] = source.is_reached(first, run["printed"],
                                       lambda state: is_seen_end(state, run["printed"], run["end"]), 300000)
    return [] if known[key] else ["of no run" if known[key] is False else "not found out"]


# ---- All runs of a program ----

def judge(text, runs):
    """What is wrong with the runs of a program, a line each; and counts: of runs, kills at points, how the others ended."""
    program, known, wrong, counts = source.Reader(text), {}, [], Counter()
    for run in runs:
        if "failed" in run:
            faults, kept = [f"status {run['failed']}"], False
        elif "end" not in run:
            counts["woken before the kill"] += 1
            continue
        else:
            faults, kept = judge_words(run) if run["killed"] else ([], False)
            faults += judge_end(run) + judge_run(program, run, known)
            tell(run, counts)
        counts["kept"] += kept
        for fault in faults:
            where = f"process {run['process']}, instruction {run['number']}, schedule {run['seed']}"
            wrong.append(f"{where}{', asleep' * run.get('asleep', False)}: {fault}")
    counts["outcomes"] = len(known)
    return wrong, counts


def tell(run, counts):
    if not run["killed"]:
        counts["without a kill"] += 1
        return
    over = all(isinstance(it, int) for it in run["end"]["processes"].values())
    counts["kills"] += 1
    counts["kills asleep"] += run["asleep"]
    counts["ended" if over else "some sleep for good"] += 1
    counts["point", POINTS[run["points"][-1]]] += 1
