"""Reads a source text and searches its runs, apart from all crates, for one in which a program did what it was seen to do.

docs/language.md says how a text is read, docs/meaning.md what it means. The text is taken to be a program.
"""

import re

WORDS = re.compile(r"--[^\n]*|[A-Za-z][A-Za-z0-9]*|[0-9]+|:=|<=|>=|[:;,.()\[\]=#<>+*/-]")
LEAST, MOST = -2**31, 2**31 - 1
MOST_PROCESSES = 1000

# The faults by their numbers.
OUT_OF_RANGE, BY_ZERO, INDEX, NOT_JOINABLE, TABLE_FULL, ABORTED, ABANDONED, JOINED_ABORTED = range(1, 9)

# Who holds a monitor where no process does.
FREE, LEFT = 0, -1


class Fault(Exception):
    """What an evaluation comes to where it has no value."""


def ranged(value):
    if not LEAST <= value <= MOST:
        raise Fault(OUT_OF_RANGE)
    return value


def divided(a, b):
    if b == 0:
        raise Fault(BY_ZERO)
    return ranged(abs(a) // abs(b) * (1 if (a < 0) == (b < 0) else -1))


def modulo(a, b):
    if b == 0:
        raise Fault(BY_ZERO)
    return abs(a) % abs(b) * (-1 if a < 0 else 1)


OPERATORS = [
    {"OR": lambda a, b: a | b},
    {"AND": lambda a, b: a & b},
    {"=": lambda a, b: int(a == b), "#": lambda a, b: int(a != b), "<": lambda a, b: int(a < b),
     "<=": lambda a, b: int(a <= b), ">": lambda a, b: int(a > b), ">=": lambda a, b: int(a >= b)},
    {"+": lambda a, b: ranged(a + b), "-": lambda a, b: ranged(a - b)},
    {"*": lambda a, b: ranged(a * b), "/": divided, "MOD": modulo},
]


class Procedure:
    """A procedure, a RECOVER part or the main part: its role, where it counts its monitor, and its steps."""

    def __init__(self, role, monitor):
        self.role, self.monitor, self.parameters, self.locals, self.steps = role, monitor, 0, {}, []


class Monitor:
    """A monitor: its number, its members by name (a place and a size, or a condition), its procedures."""

    def __init__(self, number):
        self.number, self.members, self.conditions, self.procedures, self.recover = number, {}, {}, {}, None


class Reader:
    """Reads a text into monitors and procedures, whose bodies are lists of steps."""

    def __init__(self, text):
        self.words = [word for word in WORDS.findall(text) if not word.startswith("--")]
        self.at, self.monitors, self.procedures, self.size, self.conditions = 0, {}, {}, 0, 0
        self.scope, self.code = None, None
        self.unit()

    def next(self):
        self.at += 1
        return self.words[self.at - 1]

    def skip(self, *words):
        for word in words:
            if self.next() != word:
                raise ValueError(f"{word} is wanted before {self.words[self.at - 1:self.at + 5]}")

    def has(self, word):
        if self.words[self.at] == word:
            self.at += 1
            return True
        return False

    def unit(self):
        self.skip("PROGRAM")
        self.next()
        self.skip(";")
        while self.has("MONITOR"):
            self.monitor()
        while self.has("PROCEDURE"):
            self.procedure("external", None, self.procedures)
        self.skip("MAIN")
        self.main = Procedure("main", None)
        self.body(self.main, None)
        self.skip(".")

    def monitor(self):
        monitor = self.monitors[self.next()] = Monitor(len(self.monitors))
        self.skip(";")
        while self.has("VAR"):
            name = self.next()
            self.skip(":")
            if self.has("CONDITION"):
                monitor.conditions[name] = self.conditions
                self.conditions += 1
            else:
                size = self.member_size()
                monitor.members[name] = (self.size, size)
                self.size += size or 1
            self.skip(";")
        while self.words[self.at] in ("ENTRY", "INTERNAL"):
            role = self.next().lower()
            self.skip("PROCEDURE")
            self.procedure(role, monitor, monitor.procedures)
        if self.has("RECOVER"):
            monitor.recover = Procedure("recover", monitor)
            self.body(monitor.recover, monitor)
            self.skip(";")
        self.skip("END", ";")

    # How many elements a member has, None where it is no array.
    def member_size(self):
        if self.next() != "ARRAY":
            return None
        size = int(self.next())
        self.skip("OF", "INTEGER")
        return size

    def procedure(self, role, monitor, procedures):
        name = self.next()
        procedure = procedures[name] = Procedure(role, monitor)
        self.skip("(")
        while not self.has(")"):
            self.has(",")
            procedure.locals[self.next()] = len(procedure.locals)
            self.skip(":")
            self.next()
        procedure.parameters = len(procedure.locals)
        if self.has(":"):
            self.next()
        self.skip(";")
        self.body(procedure, monitor)
        self.skip(";")

    def body(self, procedure, monitor):
        while self.has("VAR"):
            procedure.locals[self.next()] = len(procedure.locals)
            self.skip(":")
            self.next()
            self.skip(";")
        self.scope, self.code = (procedure.locals, monitor), procedure.steps
        self.statements("END")
        self.step("return", None)

    def step(self, *step):
        self.code.append(step)
        return len(self.code) - 1

    def statements(self, *ends):
        while self.words[self.at] not in ends:
            self.statement(self.next())
        return self.next()

    def statement(self, word):
        if word in ("IF", "WHILE"):
            self.branching(word)
        elif word in ("CALL", "FORK"):
            callee = self.callee()
            arguments = self.arguments()
            into = self.scope[0][self.next()] if self.has("INTO") else None
            self.step(word.lower(), callee, arguments, into)
        elif word == "JOIN":
            self.join()
            return
        elif word in ("WAIT", "NOTIFY", "BROADCAST"):
            self.step(word.lower(), self.scope[1].conditions[self.next()], self.scope[1].number)
        elif word == "RETURN":
            self.step("return", None if self.words[self.at] == ";" else self.expression())
        elif word == "PRINT":
            self.step("print", self.expression())
        elif word == "ABORT":
            self.step("abort")
        else:
            self.assignment(word)
        self.skip(";")

    def branching(self, word):
        begin = len(self.code)
        test = self.expression()
        place = self.step("test")
        self.skip("THEN" if word == "IF" else "DO")
        if word == "WHILE":
            self.statements("ENDLOOP")
            self.step("jump", begin)
        elif self.statements("ELSE", "ENDIF") == "ELSE":
            jump = self.step("jump")
            self.code[place] = ("test", test, len(self.code))
            self.statements("ENDIF")
            self.code[jump] = ("jump", len(self.code))
            return
        self.code[place] = ("test", test, len(self.code))

    def join(self):
        self.step("claim", self.expression())
        into = self.scope[0][self.next()] if self.has("INTO") else None
        place = self.step("join")
        aborted = self.has("ABORTED")
        if aborted:
            self.statements("END")
        self.skip(";")
        self.code[place] = ("join", into, aborted, len(self.code))

    def assignment(self, name):
        index = self.index() if self.has("[") else None
        self.skip(":=")
        value = self.expression()
        slot = self.scope[0].get(name)
        if slot is not None:
            self.step("local", slot, value)
        else:
            self.step("member", *self.scope[1].members[name], index, value)

    def index(self):
        index = self.expression()
        self.skip("]")
        return index

    # Procedures may be named before they are declared, so a callee is looked up when all is read.
    def callee(self):
        name = self.next()
        if self.has("."):
            return name, self.next()
        return self.scope[1], name

    def arguments(self):
        self.skip("(")
        arguments = []
        while not self.has(")"):
            self.has(",")
            arguments.append(self.expression())
        return arguments

    def find(self, callee):
        monitor, name = callee
        if isinstance(monitor, str):
            return self.monitors[monitor].procedures[name]
        if monitor is not None and name in monitor.procedures:
            return monitor.procedures[name]
        return self.procedures[name]

    # An expression is a function of the locals and of the members.
    def expression(self, level=0):
        if level == len(OPERATORS):
            return self.factor()
        left = self.expression(level + 1)
        while self.words[self.at] in OPERATORS[level]:
            left = both(OPERATORS[level][self.next()], left, self.expression(level + 1))
        return left

    def factor(self):
        word = self.next()
        if word == "(":
            inner = self.expression()
            self.skip(")")
            return inner
        if word == "-":
            inner = self.factor()
            return lambda locals, members: ranged(-inner(locals, members))
        if word == "NOT":
            inner = self.factor()
            return lambda locals, members: 1 - inner(locals, members)
        if word.isdigit() or word in ("TRUE", "FALSE"):
            value = int(word) if word.isdigit() else int(word == "TRUE")
            return lambda locals, members: value
        return self.variable(word)

    def variable(self, name):
        slot = self.scope[0].get(name)
        if slot is not None:
            return lambda locals, members: locals[slot]
        place, size = self.scope[1].members[name]
        if size is None:
            return lambda locals, members: members[place]
        self.skip("[")
        index = self.index()
        return lambda locals, members: members[place + within(index(locals, members), size)]


def both(operator, left, right):
    return lambda locals, members: operator(left(locals, members), right(locals, members))


def within(index, size):
    if not 0 <= index < size:
        raise Fault(INDEX)
    return index


class State:
    """A state of a run. A process is what it is at, a number that belongs to it, and its frames, the innermost first; a
    frame is a procedure, the place of its next step, its locals, and the frames of its callers. One process may be
    watched: none of its steps is done but as an action of its own."""

    watched = None

    def __init__(self, program):
        main = program.main
        self.program = program
        self.members, self.holders = [0] * program.size, [FREE] * len(program.monitors)
        self.processes = [("before", 0, (main, 0, (0,) * len(main.locals), None))]
        self.claimed, self.ends, self.printed = 0, {}, 0

    def copy(self):
        copy = type(self).__new__(type(self))
        copy.program, copy.claimed, copy.printed = self.program, self.claimed, self.printed
        copy.members, copy.holders = list(self.members), list(self.holders)
        copy.processes, copy.ends = list(self.processes), dict(self.ends)
        return copy

    def key(self):
        return (tuple(self.members), tuple(self.holders), tuple(self.processes), self.claimed, self.printed,
                tuple(sorted(self.ends.items())))

    # The step before which a process stands.
    def step(self, p):
        procedure, place, _, _ = self.processes[p][2]
        return procedure.steps[place]

    def value(self, p, expression):
        return expression(self.processes[p][2][2], self.members)

    # A process goes on at another step, with one of its locals changed.
    def go_on(self, p, place=None, into=None, value=0):
        procedure, before, locals, callers = self.processes[p][2]
        if into is not None:
            locals = locals[:into] + (value,) + locals[into + 1:]
        frames = (procedure, before + 1 if place is None else place, locals, callers)
        self.processes[p] = ("before", 0, frames)

    def begin(self, callee, arguments, callers):
        procedure = self.program.find(callee)
        locals = tuple(arguments) + (0,) * (len(procedure.locals) - len(arguments))
        frames = (procedure, 0, locals, callers)
        if procedure.role == "entry":
            return ("entering", procedure.monitor.number, frames)
        return ("before", 0, frames)

    def end(self, p, end):
        self.ends[p] = end
        self.processes[p] = ("over", 0, None)

    def die(self, p, fault):
        self.holders = [LEFT if holder == p + 1 else holder for holder in self.holders]
        self.end(p, ("aborted", fault))

    def take(self, p):
        _, monitor, frames = self.processes[p]
        left = self.holders[monitor] == LEFT
        self.holders[monitor] = p + 1
        self.processes[p] = ("before", 0, frames)
        if not left:
            return
        recover = [it.recover for it in self.program.monitors.values()][monitor]
        if recover is None:
            self.die(p, ABANDONED)
        else:
            self.processes[p] = ("before", 0, (recover, 0, (0,) * len(recover.locals), frames))

    def leave(self, p, result):
        procedure, _, _, _ = self.processes[p][2]
        if procedure.role == "entry":
            self.holders[procedure.monitor.number] = FREE
        self.go_back(p, result)

    # A process goes on behind the call of the procedure that it is in.
    def go_back(self, p, result):
        procedure, _, _, callers = self.processes[p][2]
        if callers is None:
            self.end(p, ("ended", result))
            return
        self.processes[p] = ("before", 0, callers)
        if procedure.role != "recover":
            self.go_on(p, into=self.step(p)[3], value=result)

    def fork(self, p, step):
        if len(self.processes) == MOST_PROCESSES:
            self.die(p, TABLE_FULL)
            return
        arguments = [self.value(p, argument) for argument in step[2]]
        self.processes.append(self.begin(step[1], arguments, None))
        self.go_on(p, into=step[3], value=len(self.processes))

    def claim(self, p, step):
        handle = self.value(p, step[1])
        if handle == 0 or self.claimed >> handle & 1:
            self.die(p, NOT_JOINABLE)
            return
        self.claimed |= 1 << handle
        self.go_on(p)
        self.processes[p] = ("joining", handle - 1, self.processes[p][2])

    def join(self, p, end):
        _, into, aborted, behind = self.step(p)
        if end[0] == "ended":
            self.go_on(p, behind, into, end[1])
        elif aborted:
            self.go_on(p)
        else:
            self.die(p, JOINED_ABORTED)

    def assign(self, p, step):
        _, place, size, index, value = step
        if size is not None:
            place += within(self.value(p, index), size)
        self.members[place] = self.value(p, value)
        self.go_on(p)

    def wait(self, p, condition, monitor):
        self.go_on(p)
        self.holders[monitor] = FREE
        self.processes[p] = ("waiting", (condition, monitor), self.processes[p][2])

    def waiters(self, condition):
        return [q for q, it in enumerate(self.processes) if it[0] == "waiting" and it[1][0] == condition]

    def resume(self, resumed):
        for q in resumed:
            _, (_, monitor), frames = self.processes[q]
            self.processes[q] = ("resuming", monitor, frames)

    # Does the next step of a process where it is to be done at once, and answers whether; who is resumed by a NOTIFY is
    # told by its caller.
    def do_calm(self, p, resumed):
        step = self.step(p)
        kind = step[0]
        if kind == "local":
            self.go_on(p, into=step[1], value=self.value(p, step[2]))
        elif kind == "member":
            self.assign(p, step)
        elif kind == "test":
            self.go_on(p, None if self.value(p, step[1]) else step[2])
        elif kind == "jump":
            self.go_on(p, step[1])
        elif kind == "call":
            arguments = [self.value(p, argument) for argument in step[2]]
            self.processes[p] = self.begin(step[1], arguments, self.processes[p][2])
        elif kind == "return":
            self.leave(p, 0 if step[1] is None else self.value(p, step[1]))
        elif kind == "wait":
            self.wait(p, step[1], step[2])
        elif kind in ("notify", "broadcast"):
            self.resume(resumed)
            self.go_on(p)
        elif kind == "abort":
            raise Fault(ABORTED)
        else:
            for expression in (step[2] if kind == "fork" else [step[1]]):
                self.value(p, expression)
            return False
        return True

    # Whom the next step of a process may resume: the choices, one that resumes nobody where it is no NOTIFY.
    def choices(self, p):
        step = self.step(p)
        waiters = self.waiters(step[1]) if step[0] in ("notify", "broadcast") else []
        if step[0] != "notify" or not waiters:
            return [waiters]
        return [[q for i, q in enumerate(waiters) if chosen >> i & 1] for chosen in range(1, 2 ** len(waiters))]


# The states to which what needs no order leads. An exit, a NOTIFY, a join and an end only let others go on, and nobody
# else sees a local step: whenever a run does them later, another does them at once and comes to the same.
def settled(state):
    states, done = [state], []
    while states:
        state = states.pop()
        calm = next((p for p in range(len(state.processes)) if is_calm(state, p)), None)
        if calm is None:
            done.append(state)
            continue
        for resumed in state.choices(calm)[1:] if state.processes[calm][0] == "before" else []:
            other = state.copy()
            other.do_calm(calm, resumed)
            states.append(other)
        settle_one(state, calm)
        states.append(state)
    return done


def is_calm(state, p):
    at, number, _ = state.processes[p]
    if p == state.watched:
        return False
    if at == "joining":
        return number in state.ends
    return at == "before" and (p in state.ends or not is_ordered(state, p))


# Whether a process stands before a step whose order matters, and which isn't a fault.
def is_ordered(state, p):
    step = state.step(p)
    if step[0] not in ("print", "fork", "claim"):
        return False
    try:
        state.do_calm(p, [])
    except Fault:
        return False
    return True


def settle_one(state, p):
    if state.processes[p][0] == "joining":
        state.join(p, state.ends[state.processes[p][1]])
        return
    try:
        state.do_calm(p, state.choices(p)[0])
    except Fault as fault:
        state.die(p, fault.args[0])


# The states that come of one action whose order matters, where what is printed next is as it was seen.
def actions(state, printed):
    for p, (at, number, _) in enumerate(state.processes):
        if p == state.watched:
            yield from state.watched_actions(printed)
        elif at in ("entering", "resuming") and state.holders[number] <= FREE:
            other = state.copy()
            other.take(p)
            yield from settled(other)
        elif at == "before":
            yield from ordered(state, p, printed)


def ordered(state, p, printed):
    step = state.step(p)
    other = state.copy()
    if step[0] == "print":
        if printed[state.printed:state.printed + 1] != [state.value(p, step[1])]:
            return
        other.printed += 1
        other.go_on(p)
    elif step[0] == "fork":
        other.fork(p, step)
    else:
        other.claim(p, step)
    yield from settled(other)


# Whether a state is an end with these faults by process; None is an end at which not all are over and none can move.
def is_end(state, printed, faults):
    if state.printed != len(printed):
        return False
    for at, number, _ in state.processes:
        if at == "before" or at in ("entering", "resuming") and state.holders[number] <= FREE:
            return False
    over = len(state.ends) == len(state.processes)
    aborted = {p + 1: end[1] for p, end in state.ends.items() if end[0] == "aborted"}
    return over and aborted == faults if faults is not None else not over


def is_of_a_run(program, printed, faults, most=300000):
    """Whether some run of a program prints these numbers and ends so; None where that isn't found out in so many states."""
    return is_reached(State(program), printed, lambda state: is_end(state, printed, faults), most)


def is_reached(first, printed, is_wanted, most):
    """Whether a run from a state comes to one that is wanted; None where that isn't found out in so many states."""
    states = settled(first)
    seen = set()
    while states:
        state = states.pop()
        key = state.key()
        if key in seen:
            continue
        seen.add(key)
        if is_wanted(state):
            return True
        if len(seen) > most:
            return None
        states.extend(actions(state, printed))
    return False
