"""What the lines of `explain --places` say of each moment of a run, by themselves."""

import re

LINE = re.compile(r"(\d+) (\w+)((?: \S+)*?)(?:  \S+?:(\d+)(?: (.*))?)?$")
ASSIGNED = re.compile(r"(\w+)(?:\[(\d+)\])? := (.*)$")


class Action:
    """An action, as its line has it."""

    def __init__(self, line):
        number, self.kind, words, place, self.more = LINE.match(line).groups()
        self.process, self.words, self.more = int(number), words.split(), self.more or ""
        self.line = int(place) if place else None
        self.text = " ".join([number, self.kind, *self.words])


def members_of(source):
    """The names of each monitor's members, and which of them are conditions."""
    found, monitor = {}, None
    for line in source.splitlines():
        line = line.partition("--")[0]
        if head := re.match(r"MONITOR (\w+)", line):
            monitor = found.setdefault(head[1], {})
        elif re.match(r"(MAIN|PROCEDURE)\b", line):
            monitor = None
        elif monitor is not None and (name := re.match(r"  VAR (\w+): (\w+)", line)):
            monitor[name[1]] = name[2]
    return found


class State:
    """A state of the run, as far as the lines tell it."""

    def __init__(self, members):
        self.members = members
        self.lines, self.over, self.holders = {1: None}, {}, dict.fromkeys(members, 0)
        self.waits, self.values, self.inside = {}, {}, {1: ["MAIN"]}

    def assign(self, action):
        """A variable of a monitor gets its value: of the monitor in whose procedure the process is."""
        name, index, value = ASSIGNED.match(action.more).groups()
        monitor = self.inside[action.process][-1].partition(".")[0]
        if name in self.members.get(monitor, {}):
            self.values[f"{monitor}.{name}", int(index or 0)] = value

    def hold(self, action):
        """A monitor is taken or given up."""
        monitor = action.words[0].partition(".")[0] if action.words else None
        if action.kind in ("enter", "resume"):
            self.holders[monitor] = action.process
        elif action.kind in ("exit", "wait"):
            self.holders[monitor] = 0
        elif action.kind == "abandon":
            self.holders[monitor] = -1

    def wake(self, action):
        """Processes wait, and are woken."""
        if action.kind == "wait":
            self.waits[action.process] = action.words[0]
        woken = {"notify": action.words[1:], "broadcast": action.words[1:], "kill": action.words}.get(action.kind, [])
        for process in [*woken, *([action.process] if action.kind in ("stray", "kill") else [])]:
            self.waits.pop(int(process), None)

    def do(self, action):
        """Does an action."""
        if action.line:
            self.lines[action.process] = action.line
        if action.kind == "fork":
            self.lines[int(action.words[0])] = None
            self.inside[int(action.words[0])] = [action.more.partition("(")[0]]
        elif action.kind == "call":
            self.inside[action.process].append(action.more.partition("(")[0])
        elif action.kind == "return":
            self.inside[action.process].pop()
        elif action.kind == "assign":
            self.assign(action)
        elif action.kind in ("fault", "kill"):
            self.over[action.process] = "aborted"
        elif action.kind == "end":
            self.over.setdefault(action.process, "ended")
            self.over[action.process] += "."
        self.hold(action)
        self.wake(action)

    def how(self, process):
        """How a process is over: `ended` or `aborted`, or None."""
        over = self.over.get(process, "")
        return over[:-1] if over.endswith(".") else None
