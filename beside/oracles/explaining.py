"""The run of the source that a log is, after docs/explaining.md and docs/lowering.md ("Where the source's actions stand").

It shares no code with the crates: the program, its code and its meaning are those of language.py, lowering.py and meaning.py,
and the machine is that of other_machine.py.
"""

from lowering import MOST, OPCODES
from meaning import State
from other_machine import HEAD, ID, KILLED, OWNER, PENDING, TAKES, process_word

NAMES = {opcode: name for name, opcode in OPCODES.items()}
# The events behind which a futex call goes on.
PROGRESS = ("FLOCK", "FCMP")


class Explainer:
    """Follows a machine entry by entry, and collects the actions of the source."""

    def __init__(self, code, machine):
        self.code, self.machine = code, machine
        self.source, self.actions = State(code.program, MOST[code.version]), []
        self.links = {link: monitor for monitor, link in enumerate(code.links)}
        # Of each process the names of its actions that are deferred; the threads that have raised a condition's number and not
        # yet woken who slept on it.
        self.deferred, self.raised = {}, set()

    # ---- Steps ----

    def follow(self, entry):
        """Takes an entry on the machine, and says what it is in the source."""
        number, count, event = entry
        for _ in range(count):
            self.local_step(number)
        if event is not None:
            {"STRAY": self.stray, "KILL": self.kill}.get(event[0], self.shared_step)(number)

    def local_step(self, number):
        thread = self.machine.threads[number - 1]
        mark = self.code.marks[thread.place]
        self.machine.local_step(number)
        if mark in ("assign", "test", "call", "return"):
            self.defer(number, mark)

    def defer(self, number, name):
        self.deferred.setdefault(number, []).append(name)

    def shared_step(self, number):
        thread = self.machine.threads[number - 1]
        phase, place, operands = thread.phase, thread.place, list(thread.operands)
        visible = self.is_visible_exit(number, thread)
        name, answer, _, _ = self.machine.shared_step(number)
        if name in PROGRESS:
            return
        if phase == "dying" and thread.cause != KILLED:
            self.defer_fault(number)
        if phase == "run":
            visible = self.of_request(number, place, operands, answer)
        if visible:
            self.catch_up(number)
            self.take_visible(number)
            self.raised.discard(number)

    def defer_fault(self, number):
        """A fault is deferred once, though a fork that finds no room has it again where it is written."""
        if "fault" not in self.deferred.get(number, []):
            self.defer(number, "fault")

    def of_request(self, number, place, operands, answer):
        """Whether a request is a visible action; or it may be one that is deferred."""
        opcode = self.machine.code[place][0]
        name, taken = NAMES[opcode], operands[-TAKES[opcode]:] if TAKES.get(opcode) else []
        if name == "CAS":
            return answer == taken[1] and taken[1] & OWNER == 0
        if name == "SWAP":
            return taken[1] == 0 or answer == 0
        if name == "LOAD":
            return self.is_process_word(taken[0], ID) and answer == 0
        if name == "STORE":
            return not self.is_process_word(taken[0], HEAD, PENDING) and taken[0] not in self.links
        if name == "FWAKE":
            return taken[0] - 1 not in self.links
        if name == "FORK" and answer == 0:
            self.defer_fault(number)
        if name in ("RET", "RETV") and self.code.marks[place] in ("return", "last return"):
            self.defer(number, "return")
        if name == "AADD" and taken[1] == 1:
            self.raised.add(number)
        elif name == "AADD":
            return True
        return name in ("FREQ", "PRINT") or name == "FORK" and answer != 0

    def is_process_word(self, address, *words):
        return 0 < address < 1 + 6 * MOST[self.code.version] and (address - 1) % 6 in words

    def is_visible_exit(self, number, thread):
        """Whether the next step of an exit is a visible action, by the words before it."""
        pending = self.machine.words[process_word(number, PENDING)]
        if thread.phase == "entry":
            return pending != thread.entry
        if thread.phase == "pending":
            return pending != 0 and self.machine.owns(number, pending + 1)
        return thread.phase == "clear"

    # ---- The source ----

    def catch_up(self, number):
        """Takes what is deferred of a process."""
        for name in self.deferred.pop(number, []):
            self.take(number, self.next_action(number, name))

    def next_action(self, number, name=None):
        """The action that a process offers; of one with several forms the internal one where that is asked for by its name."""
        kind, parts = self.source.offer(number)
        if kind == "does":
            return parts[0], *parts[1]
        if kind == "takes":
            return parts[:2]
        if kind == "makes":
            return ("fault", 5) if name == "fault" else ("fork", self.source.made + 1)
        if kind == "claims":
            return ("fault", 4) if name == "fault" else ("claim", parts[0])
        if kind == "joins":
            return "join", parts[0]
        return kind, parts[0], self.awake_waiters(parts[0])

    def take_visible(self, number):
        self.take(number, self.next_action(number))

    def take(self, number, action):
        action = (number, *action)
        if not self.source.take(action):
            raise ValueError(f"not possible: {action}")
        self.actions.append(action)

    def awake_waiters(self, condition):
        """Who waits on a condition, and neither sleeps on its word nor has committed to."""
        word = self.code.members[condition]
        return tuple(q for q in self.source.waiters(condition) if self.sleeps_on(q) != word)

    def sleeps_on(self, number):
        """The word on which a thread sleeps or has committed to."""
        if number in self.machine.asleep:
            return self.machine.asleep[number]
        thread = self.machine.threads[number - 1]
        waits = thread.phase == "run" and thread.compared and self.machine.code[thread.place][0] == OPCODES["FWAIT"]
        return thread.operands[-2] if waits else None

    # ---- From outside ----

    def stray(self, number):
        _, address, _, _ = self.machine.stray(number)
        condition = self.source.waits.get(number)
        if condition is not None and self.code.members[condition] == address:
            self.catch_up(number)
            self.take(number, ("stray", condition))

    def kill(self, number):
        pending = self.machine.words[process_word(number, PENDING)]
        last = self.links.get(pending) if pending and self.machine.owns(number, pending + 1) else None
        if self.machine.kill(number)[1] == 0:
            return
        self.catch_up(number)
        kind, parts = self.source.offer(number)
        notifies = number in self.raised and kind in ("notify", "broadcast")
        self.take(number, ("kill", self.awake_waiters(parts[0]) if notifies else (), last))
        self.raised.discard(number)

    def finish(self):
        """All actions; those that are still deferred come last."""
        for number in sorted(self.deferred):
            self.catch_up(number)
        return self.actions
