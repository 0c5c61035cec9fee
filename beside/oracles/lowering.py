"""Makes the image of a program after docs/lowering.md and docs/image.md, with the mark of each instruction.

The templates stand here as they stand on the page. It shares no code with the crates.
"""

import re
from collections import namedtuple

from language import LIMIT, MOST_INSTRUCTIONS, Refusal

OPCODES = {name: code for code, name in enumerate("""PUSH GETL SETL POP ADD SUB MUL DIV MOD NEG EQ NE LT LE GT GE BAND BOR NOT
JUMP JZ CALL RET RETV INDEX SELF PADDR FAULT""".split(), 1)}
SHARED = "LOAD STORE SWAP CAS AOR AADD FORK PRINT FWAIT FWAKE FREQ"
OPCODES.update({name: code for code, name in enumerate(SHARED.split(), 0x20)})
OPERATORS = {"+": "ADD", "-": "SUB", "*": "MUL", "/": "DIV", "MOD": "MOD", "=": "EQ", "#": "NE", "<": "LT", "<=": "LE",
             ">": "GT", ">=": "GE", "AND": "BAND", "OR": "BOR"}
# How many processes there can be, by the version of an image. The layout for Linux's exits has the bytes of version 2.
LINUX = "linux"
MOST = {1: 64, 2: 1000, LINUX: 1000}
WAITERS, DIED, OWNER = 1 << 31, 1 << 30, (1 << 30) - 1
TEMPLATES = {
    "ENTER": """my 1; PUSH e; STORE; PUSH L; PUSH 0; SELF; CAS;
                SETL 64; GETL 64; JZ got; TAKE; got: GOT""",
    "TAKE": """a: PUSH L; LOAD; SETL 64; GETL 64; PUSH M; BAND; JZ b;
               PUSH L; GETL 64; GETL 64; PUSH W; BOR; CAS;
               GETL 64; EQ; JZ a;
               PUSH L; GETL 64; PUSH W; BOR; FWAIT; POP; JUMP a;
               b: PUSH L; GETL 64; SELF; PUSH W; BOR; CAS;
               GETL 64; EQ; JZ a""",
    "GOT": """PUSH e; my 0; LOAD; STORE; my 0; PUSH e; STORE;
              my 1; PUSH 0; STORE; GETL 64; PUSH D; BAND; JZ ok; RECOVER; ok:""",
    "LEAVE": """my 1; PUSH e; STORE; my 0; PUSH e; LOAD; STORE;
                PUSH L; PUSH 0; SWAP; PUSH W; BAND; JZ n;
                PUSH L; PUSH 1; FWAKE; POP; n:""",
    "LEAVE linux": """my 1; PUSH e; STORE; my 0; PUSH e; LOAD; STORE;
                      PUSH L; SELF; NEG; AADD; PUSH W; BAND; JZ n;
                      PUSH L; PUSH 1; FWAKE; POP; n:""",
    "EXIT": "LEAVE; my 1; PUSH 0; STORE",
    "WAIT": "PUSH s; PUSH s; LOAD; LEAVE; FWAIT; POP; TAKE; GOT",
    "NOTIFY": "PUSH s; PUSH 1; AADD; POP; PUSH s; PUSH 1; FWAKE; POP",
    "BROADCAST": """PUSH s; PUSH 1; AADD; POP; PUSH L; PUSH W; AOR; POP;
                    PUSH s; PUSH L; PUSH 0; PUSH 4294967295;
                    PUSH s; LOAD; FREQ; POP""",
    "JOIN": """SETL 64; GETL 64; JZ bad;
               GETL 64; PADDR 3; PUSH 1; SWAP; JZ c; bad: FAULT 4;
               c: GETL 64; PADDR 2; LOAD; JZ d;
               GETL 64; PADDR 2; GETL 64; FWAIT; POP; JUMP c;
               d: GETL 64; PADDR 5; LOAD; PUSH 16; EQ; JZ x;
               GETL 64; PADDR 4; LOAD; INTO; JUMP z;
               x: ABORTED; z:""",
}

# A program's code: of each instruction its name and operands, and its mark where a local step with it is an action of the
# source; where its words are.
Lowered = namedtuple("Lowered", "version program code marks start links members")


def lowered(program, version):
    """The code of a program."""
    code = Code(program, version)
    starts = []
    for piece in program.pieces:
        starts.append(len(code.code))
        code.piece(piece)
    if len(code.code) > MOST_INSTRUCTIONS:
        raise Refusal((1, 1), LIMIT)
    # Calls and forks name pieces until all begin somewhere.
    linked = [(name, starts[rest[0]], *rest[1:]) if name in ("CALL", "FORK") else (name, *rest) for name, *rest in code.code]
    return Lowered(version, program, linked, code.marks, starts[-1], code.links, code.members)


class Code:
    """Instructions, one after another."""

    def __init__(self, program, version):
        self.program, self.code, self.marks = program, [], []
        # By Linux's exits a lock is given up in another way.
        self.leave = "LEAVE linux" if version == LINUX else "LEAVE"
        # The link word of each monitor, and the address of each member by the monitor and its number.
        self.links, self.members = [], {}
        at = 1 + 6 * MOST[version]
        for number, monitor in enumerate(program.monitors):
            self.links.append(at)
            at += 2
            for member, (_, _, size) in enumerate(monitor.members):
                self.members[number, member] = at
                at += size or 1

    def put(self, name, *operands, mark=None):
        self.code.append((name, *operands))
        self.marks.append(mark)
        return len(self.code) - 1

    def jump_here(self, place):
        """The jump at a place leads to what comes next."""
        self.code[place] = (self.code[place][0], len(self.code))

    def template(self, name, words, parts):
        """The code of a template: what its words stand for, and what its parts are."""
        labels, jumps = {}, []
        for step in re.split(r";\s*", TEMPLATES[name]):
            label, _, rest = step.strip().rpartition(": ") if ": " in step else ("", "", step.strip())
            if rest.endswith(":"):
                label, rest = rest[:-1], ""
            if label:
                labels[label] = len(self.code)
            if not rest:
                continue
            word, *operands = rest.split()
            if word in parts:
                parts[word]()
            elif word in TEMPLATES:
                self.template(self.leave if word == "LEAVE" else word, words, parts)
            elif word == "my":
                self.put("SELF")
                self.put("PADDR", int(operands[0]))
            elif word in ("JUMP", "JZ"):
                jumps.append((self.put(word, None), operands[0]))
            else:
                self.put(word, *(words[it] if it in words else int(it) for it in operands))
        for place, label in jumps:
            self.code[place] = (self.code[place][0], labels[label])

    def on_monitor(self, name, monitor, condition=None):
        link = self.links[monitor]
        words = {"e": link, "L": link + 1, "s": self.members.get((monitor, condition)), "W": WAITERS, "D": DIED, "M": OWNER}
        recover = self.program.monitors[monitor].recover
        self.template(name, words, {"RECOVER": lambda: self.put("FAULT", 7) if recover is None else self.put("CALL", recover)})

    # ---- Pieces and statements ----

    def piece(self, piece):
        self.own = piece
        for slot in reversed(range(piece.parameters)):
            self.put("SETL", slot)
        if piece.role == "entry":
            self.on_monitor("ENTER", piece.monitor)
        self.block(piece.body)
        if piece.result:
            self.put("PUSH", 0)
        self.answer()

    def answer(self):
        if self.own.role == "entry":
            self.on_monitor("EXIT", self.own.monitor)
        if self.own.result:
            self.put("RETV", mark="last return")
        else:
            self.put("RET", mark=None if self.own.role in ("recover", "main") else "return")

    def block(self, statements):
        for kind, *parts in statements:
            getattr(self, "put_" + kind)(*parts)

    def put_assign(self, target, e):
        what, *where = target
        if what == "local":
            self.expression(e)
            self.put("SETL", where[0], mark="assign")
            return
        self.address(what, *where)
        self.expression(e)
        self.put("STORE")

    def address(self, what, monitor, member, *array):
        if what == "element":
            size, index = array
            self.expression(index)
            self.put("INDEX", self.members[monitor, member], size)
        else:
            self.put("PUSH", self.members[monitor, member])

    def put_if(self, test, then, other):
        self.expression(test)
        place = self.put("JZ", None, mark="test")
        self.block(then)
        if other is not None:
            end = self.put("JUMP", None)
            self.jump_here(place)
            self.block(other)
            place = end
        self.jump_here(place)

    def put_while(self, test, body):
        begin = len(self.code)
        self.expression(test)
        place = self.put("JZ", None, mark="test")
        self.block(body)
        self.put("JUMP", begin)
        self.jump_here(place)

    def put_call(self, number, arguments, into):
        for e in arguments:
            self.expression(e)
        self.put("CALL", number, mark="call")
        if into is not None:
            self.put("SETL", into, mark="return")
        elif self.program.pieces[number].result:
            self.put("POP", mark="return")

    def put_fork(self, number, arguments, into):
        for e in arguments:
            self.expression(e)
        self.put("FORK", number, len(arguments))
        self.put("SETL", into)

    def put_join(self, handle, into, aborted):
        self.expression(handle)
        self.template("JOIN", {}, {
            "INTO": lambda: self.put("POP") if into is None else self.put("SETL", into),
            "ABORTED": lambda: self.put("FAULT", 8) if aborted is None else self.block(aborted),
        })

    def put_return(self, e):
        if e is not None:
            self.expression(e)
        self.answer()

    def put_wait(self, condition):
        self.on_monitor("WAIT", *condition)

    def put_notify(self, condition):
        self.on_monitor("NOTIFY", *condition)

    def put_broadcast(self, condition):
        self.on_monitor("BROADCAST", *condition)

    def put_print(self, e):
        self.expression(e)
        self.put("PRINT")

    def put_abort(self):
        self.put("FAULT", 6)

    def expression(self, e):
        if e[0] == "number":
            self.put("PUSH", e[1])
        elif e[0] == "local":
            self.put("GETL", e[1])
        elif e[0] in ("member", "element"):
            self.address(*e)
            self.put("LOAD")
        elif e[0] in ("minus", "not"):
            self.expression(e[1])
            self.put("NEG" if e[0] == "minus" else "NOT")
        else:
            self.expression(e[2])
            self.expression(e[3])
            self.put(OPERATORS[e[1]])


# ---- Bytes ----

def number_bytes(number):
    """A number as ULEB128."""
    found = bytearray()
    while number >= 128:
        found.append(number & 127 | 128)
        number >>= 7
    return bytes(found) + bytes([number])


def image_bytes(code):
    """The bytes of an image."""
    words = [sum(size or 1 for _, _, size in monitor.members) for monitor in code.program.monitors]
    found = bytearray(b"MFUT" + bytes([2 if code.version == LINUX else code.version]))
    for number in [len(words), *words, code.start, len(code.code)]:
        found += number_bytes(number)
    for name, *operands in code.code:
        found.append(OPCODES[name])
        for operand in operands:
            found += number_bytes(operand)
    return bytes(found)
