"""Compares C with the machine, a shared step at a time: the steps that lockstep.h saw of a run of the C program, and the lines
of `mesamon replay --linux --trace` of the same schedule. The C is that of an image, which `mesamon emit` writes, or one that
calls the header's functions (header_c.py).

The schedule is a log. What the C program doesn't tell of it is how many local steps stand between two shared ones, and over
the header's functions the accesses to members, which are plain C: they come of the machine of beside/oracles, over the code
that beside/oracles makes of the program, which has to be what `mesamon list --linux` lists. What is compared comes of the
program alone: each line of its trace that is a shared step of a point, a print, a fork, an end, a kill or a stray wake, and
of an image's C each access to a member, has to be the one that the C program did, with its value and whom it woke; and the
lines of an exit together wake whom the kernel woke.
"""

import os
import random
import re
import subprocess
from collections import Counter, namedtuple

import kills
import points
from language import program_of
from lowering import LINUX, MOST, OPCODES, lowered
from other_machine import TAKES, WORDS, Broken, CannotMove, Machine, process_word, signed

NAMES = {code: name for name, code in OPCODES.items()}
# The address of the first word that is no process's; and the most local steps between two shared ones.
FIRST = process_word(MOST[LINUX] + 1, 0)
MOST_LOCAL = 100000
# What stands for no point (lockstep.h).
NOWHERE = 1 << 20

# What the C program did: the step's process, point, name, address and value, whom it woke and moved, and behind an exit the
# lock words.
Step = namedtuple("Step", "process point name address value woken moved words")


class Differs(Exception):
    """The two go apart; how."""


# ---- What the C program did ----

def steps_of(text):
    """The runs that lockstep.h told: of each its steps, and how it ended, or that it failed."""
    steps = []
    for line in text.splitlines():
        word, *rest = line.split()
        if word == "end":
            yield steps, rest
            steps = []
        elif word == "failed":
            yield None, rest
            steps = []
        else:
            steps.append(step_of(word, rest))


def step_of(process, rest):
    point, name, address, value, *more = rest
    sets = {"words": "", "woke": [], "moved": []}
    for word in more:
        if word in sets:
            last = word
        elif last == "words":
            sets["words"] = word
        else:
            sets[last].append(int(word))
    words = [int(word) for word in sets["words"].split(",") if word]
    return Step(int(process), int(point), name, int(address), int(value), sets["woke"], sets["moved"], words)


def shown(step):
    point = kills.POINTS[step.point] if step.point < len(kills.POINTS) else f"place {step.point}"
    point = point if step.point < NOWHERE else "no point"
    return f"process {step.process}, {point}: {event_text(step)}" + (f" at {step.address}" if step.address else "")


def event_text(step):
    value = signed(step.value) if step.name == "PRINT" else step.value
    sets = "".join(f" {name} " + " ".join(map(str, found)) for name, found in (("woke", step.woken), ("moved", step.moved))
                   if found)
    return f"{step.name} {value}{sets}"


# ---- The schedule ----

class Schedule:
    """The log that a run of the C program comes to, a line for each entry, and which lines are which of its steps."""

    def __init__(self, code, tells_members):
        self.machine, self.code, self.tells_members = machine_of(code), code, tells_members
        self.lines, self.tags, self.owed = [], [], Counter()
        sequences = {code.members[number, member] for number, monitor in enumerate(code.program.monitors)
                     for member, (_, kind, _) in enumerate(monitor.members) if kind == "CONDITION"}
        self.protocol = sequences | {link + it for link in code.links for it in (0, 1)}

    def take(self, process, tag=None):
        """The next shared step of a process; its local steps are in the same entry."""
        name, value, woken, moved = self.machine.shared_step(process)
        event = Step(process, 0, name, 0, value, woken, moved, [])
        self.put(process, event_text(event), tag)
        return event

    def put(self, process, text, tag):
        self.lines.append(f"{process} {self.owed.pop(process, 0)} {text}")
        self.tags.append(tag)

    def local_steps(self, process):
        count = self.machine.local_steps(process, MOST_LOCAL)
        if count == MOST_LOCAL:
            raise Differs(f"process {process} computes for ever")
        self.owed[process] += count

    def ahead(self, process):
        """The shared instruction and its operands that a process stands before, or None where it is another step."""
        thread = self.machine.threads[process - 1]
        if thread.phase != "run":
            return None
        return NAMES[self.machine.code[thread.place][0]], thread.operands

    def go_on(self, process):
        """Takes local steps and, where the C program doesn't tell them, accesses to members, until another step comes."""
        while True:
            self.local_steps(process)
            name, operands = self.ahead(process) or (None, None)
            if name not in ("LOAD", "STORE"):
                return
            address = operands[-1 if name == "LOAD" else -2]
            if self.tells_members or self.has_point(address):
                return
            self.take(process)

    def has_point(self, address):
        """Whether a word is of the protocol: a point stands before what is done to it."""
        return address < FIRST or address in self.protocol

    def add(self, step, tag):
        """A step of the C program."""
        process = step.process
        if step.name == "EXIT":
            return self.add_exit(step, tag)
        if step.name == "KILL":
            if step.point < NOWHERE and process not in self.machine.asleep:
                self.go_on(process)
            if self.owed[process]:
                self.put(process, "TURN 0", None)
            return self.put(process, event_text(step._replace(value=self.machine.kill(process)[1])), tag)
        if step.name == "STRAY":
            event = self.machine.stray(process)
            return self.put(process, event_text(step._replace(value=event[1])), tag)
        if not self.machine.can_move(process):
            raise Differs("the machine's process sleeps or is over")
        self.go_on(process)
        self.judge_place(step)
        while self.take(process, tag).name in ("FLOCK", "FCMP"):
            self.tags[-1] = None
        if self.machine.can_move(process):
            self.go_on(process)

    def judge_place(self, step):
        """The instruction, and the word that it is about."""
        name, operands = self.ahead(step.process) or ("DIE", None)
        name = "END" if name in ("RET", "RETV") else name
        if name != step.name:
            raise Differs(f"the machine does {name}")
        if name not in ("END", "DIE", "PRINT", "FORK"):
            address = operands[-TAKES[OPCODES[name]]]
            if address != step.address:
                raise Differs(f"the machine does it at {address}")
            if step.point >= NOWHERE and self.has_point(address):
                raise Differs("no point stands before it")

    def add_exit(self, step, tag):
        while self.machine.threads[step.process - 1].phase != "ended":
            self.take(step.process, tag)
        words = [self.machine.words[link + 1] for link in self.code.links][:len(step.words)]
        if words != step.words:
            raise Differs(f"the machine's lock words are {words}, and not {step.words}")


def machine_of(code):
    members = [sum(size or 1 for _, _, size in monitor.members) for monitor in code.program.monitors]
    instructions = [(OPCODES[name], *operands) for name, *operands in code.code]
    return Machine((MOST[code.version], members, code.start, instructions), linux=code.version == LINUX)


# ---- The comparison ----

def judge_run(program, steps, end):
    """What is wrong with a run, one text or None, and how many lines were compared."""
    schedule, wrong = Schedule(program.code, program.is_image), None
    for number, step in enumerate(steps):
        try:
            schedule.add(step, number)
        except (Differs, Broken, CannotMove) as fault:
            wrong = f"step {number + 1}, {shown(step)}: {fault or type(fault).__name__}"
            break
    trace, compared = program.traced(schedule.lines), 0
    if len(trace) != len(schedule.lines):
        return f"the trace has {len(trace)} lines, and the schedule {len(schedule.lines)}: {trace[-1:]}", 0
    exits = {}
    for line, tag in zip(trace, schedule.tags):
        if tag is None:
            continue
        compared += 1
        step, (process, _, text) = steps[tag], line.split(" ", 2)
        if step.name == "EXIT":
            exits.setdefault(tag, set()).update(map(int, text.partition(" woke ")[2].split()))
        elif int(process) != step.process or text not in texts_of(step):
            return f"step {tag + 1}, {shown(step)}: the machine has {line}", compared
    for tag, woken in exits.items():
        if woken != set(steps[tag].woken):
            return f"step {tag + 1}, {shown(steps[tag])}: the machine wakes {sorted(woken)}", compared
    return wrong or judge_end(schedule.machine, end), compared


def texts_of(step):
    """What the machine's line may say of a step; the C program doesn't tell whether a procedure has a result, nor a requeue
    whose word has changed from one that finds nobody."""
    if step.name == "END":
        return "RET 16", f"RETV {step.value}"
    if step.name == "FREQ" and step.value == 0:
        return "FREQ 0", f"FREQ {WORDS - 1}"
    return (event_text(step),)


def judge_end(machine, end):
    """Who is over, and where the others sleep."""
    for number, told in enumerate(end[5:], 1):
        where = told.partition(":")[2]
        thread = machine.threads[number - 1]
        ours = "over0" if thread.phase == "ended" else f"at{machine.asleep[number]}" if number in machine.asleep else "stands0"
        if where != ours:
            return f"at the end process {number} is {where}, and the machine's {ours}"
    return None


# ---- Runs ----

def said(words):
    """What a command writes to its two outputs. A run may be stuck, or have come to its limit."""
    done = subprocess.run(words, capture_output=True, text=True)
    if done.returncode not in (0, 3, 4):
        raise Differs(f"{' '.join(words)}: {done.stderr or done.returncode}")
    return done.stdout, done.stderr


class Program:
    """A program: its code, its C in lockstep, and how its logs are replayed."""

    def __init__(self, name, text, folder, mesamon, emit, compiled, is_image, version=LINUX):
        self.mesamon, self.version, self.is_image = mesamon, version, is_image
        self.base = os.path.join(folder, re.sub(r"\W", "_", name))
        with open(self.base + ".mesa", "w") as file:
            file.write(text)
        self.code = lowered(program_of(text), version)
        self.judge_code()
        said(emit + [self.base + ".mesa", self.base + ".c"])
        with open(self.base + ".c") as file:
            emitted = file.read()
        with open(self.base + ".lock.c", "w") as file:
            file.write(emitted + (self.image_places() if is_image else self.places(emitted)))
        compiled(self.base + ".lock.c", self.base)

    def said_of(self, words):
        return said(self.mesamon + words)

    def judge_code(self):
        """The code of beside/oracles is the program's."""
        if self.version == LINUX:
            listed, _ = self.said_of(["list", "--linux", self.base + ".mesa"])
        else:
            self.said_of(["compile", self.base + ".mesa", self.base + ".image"])
            listed, _ = self.said_of(["list", self.base + ".image"])
        lines = [" ".join(map(str, [f"{place:05}", *it])) for place, it in enumerate(self.code.code)]
        if listed.splitlines() != lines:
            raise Differs("the code of beside/oracles isn't the program's")

    def places(self, emitted):
        """The table of the words of the monitors and conditions, as C."""
        structs = re.findall(r"^MESA_UNUSED static struct \{\n    struct mesa_monitor monitor;\n(.*?)\} (\w+);$", emitted,
                             re.S | re.M)
        rows = []
        for number, ((members, name), link) in enumerate(zip(structs, self.code.links)):
            rows += [(f"&{name}.monitor.link.next", link, "e"), (f"&{name}.monitor.lock", link + 1, "L")]
            for member, field in enumerate(re.findall(r"^    (.*);$", members, re.M)):
                if field.startswith("struct mesa_condition "):
                    address = self.code.members[number, member]
                    rows.append((f"&{name}.{field.split()[-1]}.sequence", address, "s"))
        return self.table(rows)

    def image_places(self):
        """The table of the words of the monitors, and the points of the places, as C."""
        kinds = {}
        for number, (monitor, link) in enumerate(zip(self.code.program.monitors, self.code.links)):
            kinds.update({link: "e", link + 1: "L"})
            for member, (_, kind, size) in enumerate(monitor.members):
                at = self.code.members[number, member]
                kinds.update(dict.fromkeys(range(at, at + (size or 1)), "s" if kind == "CONDITION" else "m"))
        rows = [(f"&mesa_words[{address} - MESA_FIRST]", address, kind) for address, kind in kinds.items()]
        return self.table(rows) + points.table(self.code.program)

    @staticmethod
    def table(rows):
        rows = [f"{{{word}, {address}, '{kind}'}}" for word, address, kind in rows] + ["{NULL, 0, 0}"]
        return "\nconst struct lock_place lock_places[] = {\n    " + ",\n    ".join(rows) + "\n};\n"

    def traced(self, lines):
        """The lines of the trace of a log."""
        with open(self.base + ".log", "w") as file:
            file.write("".join(line + "\n" for line in lines))
        words = ["replay", self.base + ".mesa", "--log", self.base + ".log", "--trace", "--steps", "4000000"]
        _, text = self.said_of(words + ["--linux"] * (self.version == LINUX))
        return [line for line in text.splitlines() if re.match(r"\d+ \d+ [A-Z]+ -?\d", line)]

    def run(self, plans):
        text = "".join(" ".join(map(str, plan)) + "\n" for plan in plans)
        done = subprocess.run([self.base], input=text, stdout=subprocess.PIPE, stderr=subprocess.DEVNULL, text=True)
        return list(steps_of(done.stdout))


def plans_of(counts, number, seed):
    """So many schedules. In three of four a process is killed before one of the points that it came to in the first run, or in
    its first sleep from there on, at once, some turns later, or when nobody else can go on. One of three has stray wakes."""
    drawn, plans = random.Random(seed), []
    for schedule in range(number):
        process = drawn.randrange(len(counts)) + 1
        point = drawn.randint(1, max(1, counts[process - 1]))
        delay, strays = drawn.choice([-1, -1, -1, 0, 3, 1000000]), drawn.choice([0, 0, 8])
        plans.append((schedule, process if schedule % 4 else 0, point, delay, strays))
    return plans


def compare(program, number, tally):
    """What is wrong with a program's schedules, a line each; counts what was done."""
    (_, end), = program.run([(0, 0, 0, -1, 0)])
    if end[0] == "failed" or len(end) < 6:
        return [f"no first run: {end}"]
    counts, wrong = [int(told.partition(":")[0]) for told in end[5:]], []
    for steps, end in program.run(plans_of(counts, number, 1)):
        tally["schedules"] += 1
        if steps is None:
            wrong.append(f"a run failed: {' '.join(end)}")
            continue
        fault, compared = judge_run(program, steps, end)
        tally["lines"] += compared
        tally["cut"] += int(end[3])
        for step in steps:
            tally[step.name] += 1
            if step.name == "KILL":
                tally["killed", step.point] += 1
        if fault:
            wrong.append(f"seed {end[0]}, kills {end[1]} at {end[2]}: {fault}")
    return wrong
