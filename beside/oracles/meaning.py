"""The meaning of a program after docs/meaning.md: states, which actions are possible in them, and where they lead.

It shares no code with the crates. An action is a process, the name that docs/meaning.md has for it, and what belongs to it: the
number printed, the monitor by its number, the condition as a monitor and a member, then the processes resumed, and so on.
"""

from collections import namedtuple

OUT_OF_RANGE, BY_ZERO, INDEX, NOT_JOINABLE, TABLE_FULL, ABORTED, ABANDONED_MONITOR, JOINED_ABORTED = range(1, 9)
KILLED = 9
# Who holds a monitor where no process does.
FREE, ABANDONED = 0, -1

Frame = namedtuple("Frame", "piece role monitor locals rest")
# A procedure that waits for one that it called; the callers of that; the local that takes the result.
Caller = namedtuple("Caller", "into frame callers")
# What a process offers to do: which kind of offer, and what belongs to it (State.offer).
Offer = namedtuple("Offer", "kind parts")


class Fault(Exception):
    """What an evaluation comes to where it has no value."""


def ranged(value):
    if not -2**31 <= value < 2**31:
        raise Fault(OUT_OF_RANGE)
    return value


def divided(a, b):
    if b == 0:
        raise Fault(BY_ZERO)
    return ranged(abs(a) // abs(b) * (1 if (a < 0) == (b < 0) else -1))


def modulo(a, b):
    if b == 0:
        raise Fault(BY_ZERO)
    return abs(a) % abs(b) * (-1 if a < 0 else 1)


OPERATORS = {"+": lambda a, b: ranged(a + b), "-": lambda a, b: ranged(a - b), "*": lambda a, b: ranged(a * b),
             "/": divided, "MOD": modulo, "=": lambda a, b: int(a == b), "#": lambda a, b: int(a != b),
             "<": lambda a, b: int(a < b), "<=": lambda a, b: int(a <= b), ">": lambda a, b: int(a > b),
             ">=": lambda a, b: int(a >= b), "AND": lambda a, b: a & b, "OR": lambda a, b: a | b}


def block(statements, rest):
    """Statements before what is left."""
    for statement in reversed(statements):
        rest = (statement, rest)
    return rest


def with_local(frame, slot, value):
    if slot is None:
        return frame
    return frame._replace(locals=frame.locals[:slot] + (value,) + frame.locals[slot + 1:])


def goes_on(entered, frame, callers):
    """Where a process stands that goes on with what is left of a procedure; `entered` is what its last action entered."""
    if frame.role == "recover" and frame.rest is None:
        return "before", entered, callers.frame, callers.callers
    if frame.role == "main" and (frame.rest is None or frame.rest[0][0] == "return"):
        return "leaving", 0
    return "before", entered, frame, callers


def hands_over(value, callers):
    if callers is None:
        return "leaving", value
    return goes_on(None, with_local(callers.frame, callers.into, value), callers.callers)


def monitors_of(frame, callers):
    """The monitors of the ENTRY procedures of a frame and its callers, the innermost first."""
    found = [frame.monitor] if frame is not None and frame.role == "entry" else []
    while callers is not None:
        found += [callers.frame.monitor] if callers.frame.role == "entry" else []
        callers = callers.callers
    return found


def holds(process):
    """The monitors that a process holds, the innermost first."""
    at, *parts = process
    if at in ("entering", "returning"):
        return monitors_of(None, parts[-1])
    if at in ("before", "joining", "failing"):
        return monitors_of(*parts[-2:])
    if at == "suspended":
        return [monitor for monitor in monitors_of(*parts[-2:]) if monitor != parts[0][0]]
    return list(parts[1]) if at == "dying" else []


def left_of(last, monitors):
    """What a killed process abandons, where one monitor may come last."""
    return monitors if last is None else [it for it in monitors if it != last] + [last]


class State:
    """A state of a run; processes are numbered from 1. A process is what it is at, and what belongs to that:

    entering MONITOR FRAME CALLERS, before ENTERED FRAME CALLERS, suspended CONDITION FRAME CALLERS,
    joining CHILD INTO ABORTED FRAME CALLERS, returning VALUE CALLERS, failing FAULT ENTERED FRAME CALLERS,
    dying CAUSE MONITORS, leaving VALUE, over END
    """

    def __init__(self, program, most):
        self.program, self.most = program, most
        self.hold = [FREE] * len(program.monitors)
        self.waits, self.claimed, self.over, self.printed = {}, set(), {}, []
        self.variables = {(number, member): [0] * (size or 1) for number, monitor in enumerate(program.monitors)
                          for member, (_, _, size) in enumerate(monitor.members)}
        self.processes = [None, self.begins(len(program.pieces) - 1, (), None)]

    @property
    def made(self):
        return len(self.processes) - 1

    def begins(self, number, arguments, callers):
        """Where a process stands that begins a piece."""
        piece = self.program.pieces[number]
        locals = tuple(arguments) + (0,) * (piece.locals - len(arguments))
        frame = Frame(number, piece.role, piece.monitor, locals, block(piece.body, None))
        if piece.role == "entry":
            return "entering", piece.monitor, frame, callers
        return goes_on(None, frame, callers)

    def recovers(self, monitor, frame, callers):
        """Where a process stands that has taken an abandoned monitor."""
        recover = self.program.monitors[monitor].recover
        if recover is None:
            return "failing", ABANDONED_MONITOR, monitor, frame, callers
        piece = self.program.pieces[recover]
        own = Frame(recover, "recover", monitor, (0,) * piece.locals, block(piece.body, None))
        return goes_on(monitor, own, Caller(None, frame, callers))

    def value(self, e, locals):
        """The value of an expression."""
        kind = e[0]
        if kind == "number":
            return e[1]
        if kind == "local":
            return locals[e[1]]
        if kind == "member":
            return self.variables[e[1], e[2]][0]
        if kind == "element":
            return self.variables[e[1], e[2]][self.index(e, locals)]
        if kind == "minus":
            return ranged(-self.value(e[1], locals))
        if kind == "not":
            return 1 - self.value(e[1], locals)
        left = self.value(e[2], locals)
        return OPERATORS[e[1]](left, self.value(e[3], locals))

    def index(self, element, locals):
        """The index of an element, which is tested."""
        _, _, _, size, e = element
        index = self.value(e, locals)
        if not 0 <= index < size:
            raise Fault(INDEX)
        return index

    # ---- What a process offers ----

    def offer(self, number):
        """What a process offers to do next. By the kind of the offer its parts are:

        does: the action's name, what belongs to it, what it does beside the process (nothing, or a function of the state), and
            where the process stands after it
        takes: enter or resume, the monitor, and where the process stands after it where it was free, and where it was abandoned
        makes: the child, where the process stands after it by the child's number, and where no more can be made
        claims: the child, where the process stands after it, and where the child is claimed
        joins: the child, and where the process stands after it by how the child ended
        notify, broadcast: the condition, and where the process stands after it
        rests: nothing
        """
        at, *parts = self.processes[number]
        if at == "entering":
            monitor, frame, callers = parts
            return Offer("takes", ("enter", monitor, goes_on(monitor, frame, callers), self.recovers(monitor, frame, callers)))
        if at == "suspended":
            (monitor, _), frame, callers = parts
            return Offer("takes", ("resume", monitor, goes_on(monitor, frame, callers), self.recovers(monitor, frame, callers)))
        if at == "before":
            return self.rest_offer(*parts[1:])
        if at == "joining":
            return Offer("joins", (parts[0], lambda end: self.after_join(end, *parts[1:])))
        if at == "returning":
            return does("return", (), hands_over(*parts))
        if at == "failing":
            return self.fails(parts[0], *parts[2:])
        if at == "dying":
            cause, monitors = parts
            if monitors:
                return does("abandon", (monitors[0],), ("dying", cause, monitors[1:]), self.abandoned(monitors[0]))
            return self.ends(number, ("aborted", cause))
        return self.ends(number, ("ended", parts[0])) if at == "leaving" else Offer("rests", ())

    def ends(self, number, end):
        return does("end", (), ("over", end), lambda state: state.over.update({number: end}))

    def abandoned(self, monitor):
        return lambda state: state.hold.__setitem__(monitor, ABANDONED)

    def fails(self, fault, frame, callers):
        return does("fault", (fault,), ("dying", fault, monitors_of(frame, callers)))

    def rest_offer(self, frame, callers):
        try:
            if frame.rest is None:
                return self.answers(frame, callers, 0)
            (kind, *parts), rest = frame.rest
            return getattr(self, "offer_" + kind)(frame._replace(rest=rest), callers, *parts)
        except Fault as fault:
            return self.fails(fault.args[0], frame, callers)

    def answers(self, frame, callers, value):
        if frame.role == "entry":
            return does("exit", (frame.monitor,), ("returning", value, callers),
                        lambda state: state.hold.__setitem__(frame.monitor, FREE))
        return does("return", (), hands_over(value, callers))

    def offer_assign(self, frame, callers, target, e):
        if target[0] == "local":
            return does("assign", (), goes_on(None, with_local(frame, target[1], self.value(e, frame.locals)), callers))
        index = self.index(target, frame.locals) if target[0] == "element" else 0
        value = self.value(e, frame.locals)
        return does("assign", (), goes_on(None, frame, callers),
                    lambda state: state.variables[target[1], target[2]].__setitem__(index, value))

    def offer_if(self, frame, callers, test, then, other):
        chosen = then if self.value(test, frame.locals) else other or []
        return does("test", (), goes_on(None, frame._replace(rest=block(chosen, frame.rest)), callers))

    def offer_while(self, frame, callers, test, body):
        if self.value(test, frame.locals):
            frame = frame._replace(rest=block(body, (("while", test, body), frame.rest)))
        return does("test", (), goes_on(None, frame, callers))

    def values(self, es, frame):
        return tuple([self.value(e, frame.locals) for e in es])

    def offer_call(self, frame, callers, number, arguments, into):
        return does("call", (), self.begins(number, self.values(arguments, frame), Caller(into, frame, callers)))

    def offer_fork(self, frame, callers, number, arguments, into):
        child = self.begins(number, self.values(arguments, frame), None)
        return Offer("makes", (child, lambda n: goes_on(None, with_local(frame, into, n), callers),
                               ("dying", TABLE_FULL, monitors_of(frame, callers))))

    def offer_join(self, frame, callers, handle, into, aborted):
        child = self.value(handle, frame.locals)
        if child <= 0:
            raise Fault(NOT_JOINABLE)
        return Offer("claims", (child, ("joining", child, into, aborted, frame, callers),
                                ("dying", NOT_JOINABLE, monitors_of(frame, callers))))

    def after_join(self, end, into, aborted, frame, callers):
        if end[0] == "ended":
            return goes_on(None, with_local(frame, into, end[1]), callers)
        if aborted is None:
            return "failing", JOINED_ABORTED, None, frame, callers
        return goes_on(None, frame._replace(rest=block(aborted, frame.rest)), callers)

    def offer_return(self, frame, callers, e):
        return self.answers(frame, callers, 0 if e is None else self.value(e, frame.locals))

    def offer_wait(self, frame, callers, condition):
        return does("wait", (condition,), ("suspended", condition, frame, callers),
                    lambda state: state.hold.__setitem__(condition[0], FREE))

    def offer_notify(self, frame, callers, condition):
        return Offer("notify", (condition, goes_on(None, frame, callers)))

    def offer_broadcast(self, frame, callers, condition):
        return Offer("broadcast", (condition, goes_on(None, frame, callers)))

    def offer_print(self, frame, callers, e):
        value = self.value(e, frame.locals)
        return does("print", (value,), goes_on(None, frame, callers), lambda state: state.printed.append(value))

    def offer_abort(self, frame, callers):
        raise Fault(ABORTED)

    # ---- Actions ----

    def waiters(self, condition):
        return [q for q in range(1, self.made + 1) if self.waits.get(q) == condition]

    def can_move(self, number):
        """Whether some action of a process's own is possible."""
        offer = self.offer(number)
        if offer.kind == "takes":
            return number not in self.waits and self.hold[offer.parts[1]] <= FREE
        if offer.kind == "joins":
            return offer.parts[0] in self.over
        return offer.kind != "rests"

    def movers(self):
        return [number for number in range(1, self.made + 1) if self.can_move(number)]

    def take(self, action):
        """Takes an action; answers whether it was possible. If it wasn't, nothing has changed."""
        number, name, *rest = action
        if not 1 <= number <= self.made:
            return False
        if name in ("stray", "kill"):
            return self.take_stray(number, *rest) if name == "stray" else self.take_kill(number, *rest)
        kind, parts = self.offer(number)
        return kind != "rests" and getattr(self, "take_" + kind)(number, parts, name, tuple(rest))

    def take_does(self, number, parts, name, rest):
        own, belongs, effect, after = parts
        if (name, rest) != (own, belongs):
            return False
        if effect is not None:
            effect(self)
        if name == "wait":
            self.waits[number] = belongs[0]
        self.processes[number] = after
        return True

    def take_takes(self, number, parts, name, rest):
        own, monitor, free, abandoned = parts
        if (name, rest) != (own, (monitor,)) or number in self.waits or self.hold[monitor] > FREE:
            return False
        self.processes[number] = abandoned if self.hold[monitor] == ABANDONED else free
        self.hold[monitor] = number
        return True

    def take_makes(self, number, parts, name, rest):
        child, after, full = parts
        if self.made == self.most:
            if (name, rest) != ("fault", (TABLE_FULL,)):
                return False
            self.processes[number] = full
            return True
        if (name, rest) != ("fork", (self.made + 1,)):
            return False
        self.processes.append(child)
        self.processes[number] = after(self.made)
        return True

    def take_claims(self, number, parts, name, rest):
        child, after, refused = parts
        if child in self.claimed:
            if (name, rest) != ("fault", (NOT_JOINABLE,)):
                return False
            self.processes[number] = refused
            return True
        if (name, rest) != ("claim", (child,)):
            return False
        self.claimed.add(child)
        self.processes[number] = after
        return True

    def take_joins(self, number, parts, name, rest):
        child, after = parts
        if (name, rest) != ("join", (child,)) or child not in self.over:
            return False
        self.processes[number] = after(self.over[child])
        return True

    def take_notify(self, number, parts, name, rest):
        condition, after = parts
        waiters = self.waiters(condition)
        if name != "notify" or rest[0] != condition or not rises(rest[1], waiters) or not rest[1] and waiters:
            return False
        return self.resume(number, rest[1], after)

    def take_broadcast(self, number, parts, name, rest):
        condition, after = parts
        if name != "broadcast" or rest[0] != condition or list(rest[1]) != self.waiters(condition):
            return False
        return self.resume(number, rest[1], after)

    def resume(self, number, resumed, after):
        for process in resumed:
            del self.waits[process]
        self.processes[number] = after
        return True

    def take_stray(self, number, condition):
        if self.waits.get(number) != condition:
            return False
        del self.waits[number]
        return True

    def take_kill(self, number, resumed, last):
        process = self.processes[number]
        if process[0] in ("dying", "over"):
            return False
        offer = self.offer(number)
        notified = offer.parts[0] if offer.kind in ("notify", "broadcast") else None
        if not rises(resumed, [] if notified is None else self.waiters(notified)):
            return False
        monitors = holds(process)
        if last is not None and (last not in monitors or not is_last(process, offer, last)):
            return False
        for waiter in (*resumed, number):
            self.waits.pop(waiter, None)
        self.processes[number] = ("dying", KILLED, left_of(last, monitors))
        return True


def does(name, belongs, after, effect=None):
    return Offer("does", (name, belongs, effect, after))


def rises(numbers, allowed):
    """Whether numbers are some of these, rising."""
    return list(numbers) == sorted(set(numbers)) and set(numbers) <= set(allowed)


def is_last(process, offer, monitor):
    """Whether a process that is killed may abandon a monitor last: it has just entered it, or would enter or give it up."""
    entered = process[2] if process[0] == "failing" else process[1] if process[0] in ("entering", "before") else None
    gives_up = offer.kind == "does" and (offer.parts[:2] == ("exit", (monitor,))
                                         or offer.parts[0] == "wait" and offer.parts[1][0][0] == monitor)
    return entered == monitor or gives_up


def run_of(program, actions, most):
    """The state at the end of a list of actions, and how many of them, from the first, are possible."""
    state = State(program, most)
    for count, action in enumerate(actions):
        if not state.take(action):
            return state, count
    return state, len(actions)


# ---- Lines ----

def line_of(program, action):
    """The line of an action."""
    number, name, *rest = action
    words = [number, name]
    if name in ("enter", "exit", "resume", "abandon"):
        words.append(program.monitors[rest[0]].name)
    elif name in ("wait", "notify", "broadcast", "stray"):
        monitor = program.monitors[rest[0][0]]
        words += [f"{monitor.name}.{monitor.members[rest[0][1]][0]}", *(rest[1] if name in ("notify", "broadcast") else ())]
    else:
        words += rest[0] if name == "kill" else rest
    return " ".join(map(str, words))


def action_of(program, line):
    """The action of a line. Monitors and members may be numbers."""
    number, name, *rest = line.split()
    monitors = {monitor.name: i for i, monitor in enumerate(program.monitors)}
    if name in ("enter", "exit", "resume", "abandon"):
        return int(number), name, monitors[rest[0]] if rest[0] in monitors else int(rest[0])
    if name in ("wait", "notify", "broadcast", "stray"):
        if "." in rest[0]:
            monitor, member = rest[0].split(".")
            members = [member for member, _, _ in program.monitors[monitors[monitor]].members]
            condition, resumed = (monitors[monitor], members.index(member)), rest[1:]
        else:
            condition, resumed = (int(rest[0]), int(rest[1])), rest[2:]
        return int(number), name, condition, *([tuple(map(int, resumed))] if name in ("notify", "broadcast") else [])
    if name == "kill":
        return int(number), name, tuple(map(int, rest)), None
    return int(number), name, *map(int, rest)
