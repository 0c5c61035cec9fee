"""Reads a source text after docs/language.md: its tokens, its tree, its faults, and the program that is meant.

`program_of` gives the program of a text, or raises the Refusal that the page has for it. It shares no code with the crates.
"""

import re
from collections import namedtuple

MOST_BYTES, MOST_NUMBER, MOST_NESTINGS, MOST_INSTRUCTIONS = 1 << 20, 2**31 - 1, 64, 1 << 16
NAMES = ["", "NotAscii", "BadToken", "Expected", "Redeclared", "Unknown", "TypeMismatch", "WrongPlace", "DirectReentry",
         "Recursion", "Limit"]
NOT_ASCII, BAD_TOKEN, EXPECTED, REDECLARED, UNKNOWN, MISMATCH, WRONG_PLACE, REENTRY, RECURSION, LIMIT = range(1, 11)
KEYWORDS = set("""PROGRAM MONITOR VAR CONDITION ARRAY OF INTEGER BOOLEAN PROCESS ENTRY INTERNAL PROCEDURE RECOVER MAIN END
IF THEN ELSE ENDIF WHILE DO ENDLOOP CALL INTO FORK JOIN ABORTED RETURN WAIT NOTIFY BROADCAST PRINT ABORT OR AND MOD NOT TRUE
FALSE""".split())
LEXEME = re.compile(r"[ \t\n\r]+|--[\x00-\x09\x0b-\x7f]*|[A-Za-z][A-Za-z0-9]*|[0-9]+|:=|<=|>=|[:;,.()\[\]=#<>+*/-]", re.ASCII)
VALUES = ("INTEGER", "BOOLEAN", "PROCESS")
# The operators by their levels, the loosest first; of a relation there is one at most.
LEVELS = [("OR",), ("AND",), ("=", "#", "<", "<=", ">", ">="), ("+", "-"), ("*", "/", "MOD")]
RELATION = 2
# What an operator of a level takes, and what it gives; those of relations take what they say themselves.
TAKES = ["BOOLEAN", "BOOLEAN", "INTEGER", "INTEGER", "INTEGER"]
GIVES = ["BOOLEAN", "BOOLEAN", "BOOLEAN", "INTEGER", "INTEGER"]


class Refusal(Exception):
    """Why a text is no program: a place, a line and a column, and the number of the refusal."""

    def line(self):
        (line, column), number = self.args
        return f"{line}:{column}: error {number} {NAMES[number]}"


# A token: a keyword or a sign, or `name`, `number` or `end`; its place; and its bytes or its value.
Token = namedtuple("Token", "word place value")
# What a name stands for in a declaration.
Name = namedtuple("Name", "text place")
Member = namedtuple("Member", "name kind size size_place")
Local = namedtuple("Local", "name kind")
# A procedure, a RECOVER part or MAIN, with the place of its name or of its keyword.
Piece = namedtuple("Piece", "role monitor name place parameters result locals body")
Monitor = namedtuple("Monitor", "name members pieces")
# The program that is meant: of each monitor its name, its members (a name, a kind, and the size of an array) and the number of
# its RECOVER part; and its pieces.
Program = namedtuple("Program", "monitors pieces")
MeantMonitor = namedtuple("MeantMonitor", "name members recover")
# A piece that is meant: how many parameters and locals it has in all, the type of its result, and its statements.
Meant = namedtuple("Meant", "role monitor parameters locals result body")


# ---- Tokens ----

def tokens_of(text):
    """The tokens of a text, the last one of which is its end."""
    if len(text) > MOST_BYTES:
        raise Refusal((1, 1), LIMIT)
    tokens, at, line, begins = [], 0, 1, 0
    while at < len(text):
        place, found = (line, at - begins + 1), LEXEME.match(text, at)
        if found is None:
            raise Refusal(place, NOT_ASCII if ord(text[at]) > 127 else BAD_TOKEN)
        word, at = found[0], found.end()
        if word[0] in " \t\n\r":
            line += word.count("\n")
            begins = max(begins, found.start() + word.rfind("\n") + 1) if "\n" in word else begins
        elif not word.startswith("--"):
            tokens.append(token_of(word, place))
    tokens.append(Token("end", (line, at - begins + 1), None))
    return tokens


def token_of(word, place):
    if word.isdigit():
        if len(word.lstrip("0")) > 10 or int(word) > MOST_NUMBER:
            raise Refusal(place, BAD_TOKEN)
        return Token("number", place, int(word))
    if word[0].isalpha() and word not in KEYWORDS:
        return Token("name", place, word)
    return Token(word, place, word)


# ---- Trees ----

# An expression is a tuple: what it is, the place of its first token, and its parts.
#   number VALUE, truth VALUE, reads NAME INDEX, group EXPRESSION, minus FACTOR, not FACTOR,
#   chain LEVEL OPERAND ((OPERATOR, OPERAND) ..)
# So is a statement, with the place of its keyword or name.
class Parser:
    """Reads tokens as a unit, from the first to the last."""

    def __init__(self, tokens):
        self.tokens, self.at, self.open = tokens, 0, 0
        self.now = tokens[0]

    def take(self):
        taken = self.now
        self.at += 1
        self.now = self.tokens[min(self.at, len(self.tokens) - 1)]
        return taken

    def expect(self, *words):
        for word in words:
            if self.now.word != word:
                raise Refusal(self.now.place, EXPECTED)
            taken = self.take()
        return taken

    def has(self, *words):
        return self.take() if self.now.word in words else None

    def one_of(self, *words):
        if self.now.word not in words:
            raise Refusal(self.now.place, EXPECTED)
        return self.take()

    def nest(self):
        """Takes the token that opens a nesting."""
        if self.open == MOST_NESTINGS:
            raise Refusal(self.now.place, LIMIT)
        self.open += 1
        return self.take()

    def name(self):
        token = self.expect("name")
        return Name(token.value, token.place)

    def unit(self):
        self.expect("PROGRAM", "name", ";")
        monitors, procedures = [], []
        while self.has("MONITOR"):
            monitors.append(self.monitor(len(monitors)))
        while self.has("PROCEDURE"):
            procedures.append(self.procedure("external", None))
        main = self.expect("MAIN")
        locals, body = self.body()
        self.expect(".")
        if self.now.word != "end":
            raise Refusal(self.now.place, EXPECTED)
        return monitors, procedures, Piece("main", None, None, main.place, [], None, locals, body)

    def monitor(self, number):
        name, members, pieces = self.name(), [], []
        self.expect(";")
        while self.has("VAR"):
            members.append(self.member())
        while self.now.word in ("ENTRY", "INTERNAL"):
            role = self.take().word.lower()
            self.expect("PROCEDURE")
            pieces.append(self.procedure(role, number))
        if self.now.word == "RECOVER":
            place = self.take().place
            locals, body = self.body()
            self.expect(";")
            pieces.append(Piece("recover", number, None, place, [], None, locals, body))
        self.expect("END", ";")
        return Monitor(name, members, pieces)

    def member(self):
        name = self.name()
        self.expect(":")
        kind, size, place = self.one_of(*VALUES, "CONDITION", "ARRAY").word, None, None
        if kind == "ARRAY":
            _, place, size = self.expect("number")
            self.expect("OF", "INTEGER")
        self.expect(";")
        return Member(name, kind, size, place)

    def local(self):
        name = self.name()
        self.expect(":")
        return Local(name, self.one_of(*VALUES).word)

    def procedure(self, role, monitor):
        name, parameters, result = self.name(), [], None
        self.expect("(")
        if self.now.word != ")":
            parameters.append(self.local())
            while self.has(","):
                parameters.append(self.local())
        self.expect(")")
        if self.has(":"):
            result = self.one_of("INTEGER", "BOOLEAN").word
        self.expect(";")
        locals, body = self.body()
        self.expect(";")
        return Piece(role, monitor, name, name.place, parameters, result, locals, body)

    def body(self):
        locals = []
        while self.has("VAR"):
            locals.append(self.local())
            self.expect(";")
        return locals, self.statements("END")[0]

    def statements(self, *ends):
        """Statements up to one of these words, which is taken too."""
        found = []
        while self.now.word not in ends:
            found.append(self.statement())
        return found, self.take().word

    def statement(self):
        word, place, _ = self.now
        read = {"IF": self.branch, "WHILE": self.loop, "CALL": self.call, "FORK": self.fork, "JOIN": self.join,
                "RETURN": self.answer, "name": self.assignment}.get(word)
        if read is not None:
            parts = read()
        elif word in ("WAIT", "NOTIFY", "BROADCAST"):
            self.take()
            parts = (self.name(),)
        elif word in ("PRINT", "ABORT"):
            self.take()
            parts = (self.expression(),) if word == "PRINT" else ()
        else:
            raise Refusal(place, EXPECTED)
        self.expect(";")
        return ({"name": "assign"}.get(word, word.lower()), place, *parts)

    def branch(self):
        self.nest()
        test = self.expression()
        self.expect("THEN")
        then, end = self.statements("ELSE", "ENDIF")
        other = self.statements("ENDIF")[0] if end == "ELSE" else None
        self.open -= 1
        return test, then, other

    def loop(self):
        self.nest()
        test = self.expression()
        self.expect("DO")
        body, _ = self.statements("ENDLOOP")
        self.open -= 1
        return test, body

    def call(self):
        self.take()
        return (*self.callee(), self.name() if self.has("INTO") else None)

    def fork(self):
        self.take()
        callee = self.callee()
        self.expect("INTO")
        return (*callee, self.name())

    def callee(self):
        name, dotted, arguments = self.name(), None, []
        if self.has("."):
            dotted = self.name()
        self.expect("(")
        if self.now.word != ")":
            arguments.append(self.expression())
            while self.has(","):
                arguments.append(self.expression())
        self.expect(")")
        return name, dotted, arguments

    def join(self):
        self.take()
        handle = self.expression()
        into, aborted = self.name() if self.has("INTO") else None, None
        if self.now.word == "ABORTED":
            self.nest()
            aborted, _ = self.statements("END")
            self.open -= 1
        return handle, into, aborted

    def answer(self):
        self.take()
        return (None if self.now.word == ";" else self.expression(),)

    def assignment(self):
        name, index = self.name(), self.index()
        self.expect(":=")
        return name, index, self.expression()

    def index(self):
        if self.now.word != "[":
            return None
        self.nest()
        index = self.expression()
        self.expect("]")
        self.open -= 1
        return index

    def expression(self, level=0):
        if level == len(LEVELS):
            return self.factor()
        first, more = self.expression(level + 1), []
        while self.now.word in LEVELS[level] and not (level == RELATION and more):
            operator = self.take().word
            more.append((operator, self.expression(level + 1)))
        return ("chain", first[1], level, first, more) if more else first

    def factor(self):
        word, place, value = self.now
        if word == "number":
            self.take()
            return "number", place, value
        if word in ("TRUE", "FALSE"):
            self.take()
            return "truth", place, int(word == "TRUE")
        if word == "name":
            return "reads", place, self.name(), self.index()
        if word not in ("(", "-", "NOT"):
            raise Refusal(place, EXPECTED)
        self.nest()
        if word == "(":
            inner = self.expression()
            self.expect(")")
        else:
            inner = self.factor()
        self.open -= 1
        return {"(": "group", "-": "minus", "NOT": "not"}[word], place, inner


# ---- Faults ----

def first_of(names):
    """The number of the first of some names that is written so, by what is written."""
    found = {}
    for number, name in enumerate(names):
        found.setdefault(name.text, number)
    return found


class Unit:
    """A unit, with what its names mean."""

    def __init__(self, monitors, procedures, main):
        self.monitors, self.procedures = monitors, procedures
        self.pieces = [piece for monitor in monitors for piece in monitor.pieces] + procedures + [main]
        self.monitor_numbers = first_of([monitor.name for monitor in monitors])
        self.members = [first_of([member.name for member in monitor.members]) for monitor in monitors]
        self.callees, self.externals, at = [], {}, 0
        for number, monitor in enumerate(monitors):
            named = [piece for piece in monitor.pieces if piece.name]
            numbers = first_of([piece.name for piece in named])
            self.callees.append({text: at + i for text, i in numbers.items() if text not in self.members[number]})
            at += len(monitor.pieces)
        numbers = first_of([procedure.name for procedure in procedures])
        self.externals = {text: at + i for text, i in numbers.items() if text not in self.monitor_numbers}

    def callee(self, piece, name, dotted):
        """The number of the piece that a callee means, if there is one."""
        if dotted is not None:
            monitor = self.monitor_numbers.get(name.text)
            return None if monitor is None else self.callees[monitor].get(dotted.text)
        own = None if piece.monitor is None else self.callees[piece.monitor].get(name.text)
        return self.externals.get(name.text) if own is None else own

    def faults(self):
        """All faults of the unit: places, and the numbers of refusals."""
        yield from self.repeated([m.name for m in self.monitors] + [p.name for p in self.procedures])
        for monitor in self.monitors:
            names = [member.name for member in monitor.members]
            yield from self.repeated(names + [piece.name for piece in monitor.pieces if piece.name])
        yield from self.limits()
        yield from self.chains()
        for piece in self.pieces:
            yield from self.repeated([local.name for local in [*piece.parameters, *piece.locals]])
            yield from Scope(self, piece).block(piece.body)

    def repeated(self, names):
        firsts = first_of(names)
        return [(name.place, REDECLARED) for number, name in enumerate(names) if firsts[name.text] != number]

    def limits(self):
        members = [member for monitor in self.monitors for member in monitor.members]
        yield from past([monitor.name for monitor in self.monitors], 64)
        yield from past([member.name for member in members if member.kind == "CONDITION"], 256)
        yield from past([piece.name for piece in self.pieces if piece.name], 512)
        words = 0
        for member in members:
            fits = member.size is None or 1 <= member.size <= 1024
            words += (member.size or 1) if fits else 1
            if words > 1024:
                yield member.name.place, LIMIT
            if not fits:
                yield member.size_place, LIMIT
        for piece in self.pieces:
            yield from past([local.name for local in piece.parameters], 16)
            yield from past([local.name for local in [*piece.parameters, *piece.locals]], 64)

    def chains(self):
        """Procedures on a cycle of calls, and those with too long a chain of calls."""
        calls = [set(Scope(self, piece).calls(piece.body)) for piece in self.pieces]
        lengths = {}  # (of the longest chain; of none where there is no longest one)
        for number, piece in enumerate(self.pieces):
            if piece.role == "recover":
                continue
            if number in reached(calls, number):
                yield piece.place, RECURSION
            elif (chain := longest(calls, number, lengths)) is not None and chain > 15:
                yield piece.place, LIMIT


def past(names, most):
    return [(name.place, LIMIT) for name in names[most:]]


def reached(calls, number):
    """Which pieces calls lead to."""
    seen, ahead = set(), list(calls[number])
    while ahead:
        one = ahead.pop()
        if one not in seen:
            seen.add(one)
            ahead += calls[one]
    return seen


def longest(calls, number, known):
    """How many pieces the longest chain of calls from one has, none where a cycle is on it."""
    if number not in known:
        if any(one in reached(calls, one) for one in {number, *reached(calls, number)}):
            known[number] = None
        else:
            known[number] = 1 + max((longest(calls, one, known) for one in calls[number]), default=0)
    return known[number]


class Scope:
    """What names mean in a piece, and what is wrong with its statements and expressions."""

    def __init__(self, unit, piece):
        self.unit, self.piece = unit, piece
        self.slots = [*piece.parameters, *piece.locals]
        self.locals = first_of([local.name for local in self.slots])

    def meaning(self, name):
        """What a variable's name means: a local, a member of the own monitor, or nothing."""
        if name.text in self.locals:
            return "local", self.locals[name.text], self.slots[self.locals[name.text]]
        monitor = self.piece.monitor
        if monitor is not None and name.text in self.unit.members[monitor]:
            number = self.unit.members[monitor][name.text]
            return "member", number, self.unit.monitors[monitor].members[number]
        return None

    def use_type(self, name, index):
        """The type of a name that is read or assigned, none where it has every one."""
        meaning = self.meaning(name)
        if meaning is None:
            return None
        kind = meaning[2].kind
        if index is not None:
            return "INTEGER" if kind == "ARRAY" else None
        return kind if kind in VALUES else None

    def type(self, e):
        if e[0] == "number" or e[0] == "minus":
            return "INTEGER"
        if e[0] == "truth" or e[0] == "not":
            return "BOOLEAN"
        if e[0] == "reads":
            return self.use_type(e[2], e[3])
        return self.type(e[2]) if e[0] == "group" else GIVES[e[2]]

    # ---- Expressions ----

    def use(self, name, index):
        if self.meaning(name) is None:
            yield name.place, UNKNOWN
        elif self.use_type(name, index) is None:
            yield name.place, MISMATCH
        if index is not None:
            yield from self.typed("INTEGER", index)

    def wants(self, wanted, e):
        if wanted is not None and self.type(e) not in (None, wanted):
            yield e[1], MISMATCH

    def typed(self, wanted, e):
        yield from self.expression(e)
        yield from self.wants(wanted, e)

    def expression(self, e):
        if e[0] == "reads":
            yield from self.use(e[2], e[3])
        elif e[0] == "group":
            yield from self.expression(e[2])
        elif e[0] in ("minus", "not"):
            yield from self.typed("INTEGER" if e[0] == "minus" else "BOOLEAN", e[2])
        elif e[0] == "chain":
            yield from self.chain(*e[2:])

    def chain(self, level, first, more):
        if level == RELATION and more[0][0] in ("=", "#"):
            right = more[0][1]
            yield from self.expression(first)
            yield from self.expression(right)
            if self.type(first) == "PROCESS":
                yield first[1], MISMATCH
            else:
                yield from self.wants(self.type(first), right)
            return
        for operand in [first, *(operand for _, operand in more)]:
            yield from self.typed(TAKES[level], operand)

    # ---- Statements ----

    def block(self, statements):
        for kind, place, *parts in statements or []:
            yield from getattr(self, "of_" + kind)(place, *parts)

    def not_in_recover(self, place):
        if self.piece.role == "recover":
            yield place, WRONG_PLACE

    def of_assign(self, _place, name, index, e):
        yield from self.use(name, index)
        yield from self.typed(self.use_type(name, index), e)

    def of_if(self, _place, test, then, other):
        yield from self.typed("BOOLEAN", test)
        yield from self.block(then)
        yield from self.block(other)

    def of_while(self, _place, test, body):
        yield from self.typed("BOOLEAN", test)
        yield from self.block(body)

    def of_call(self, place, name, dotted, arguments, into):
        yield from self.not_in_recover(place)
        number = yield from self.called(name, dotted, arguments)
        result = None
        if number is not None:
            piece, at = self.unit.pieces[number], (dotted or name).place
            result = piece.result
            if dotted and piece.role == "internal":
                yield at, WRONG_PLACE
            if piece.role == "entry" and piece.monitor == self.piece.monitor:
                yield at, REENTRY
            if into and result is None:
                yield at, MISMATCH
        if into:
            yield from self.taker(into, result)

    def of_fork(self, place, name, dotted, arguments, into):
        yield from self.not_in_recover(place)
        number = yield from self.called(name, dotted, arguments)
        if number is not None and self.unit.pieces[number].role == "internal":
            yield (dotted or name).place, WRONG_PLACE
        yield from self.taker(into, "PROCESS")

    def called(self, name, dotted, arguments):
        """The faults of a callee and its arguments; gives the number of the piece, if there is one."""
        for argument in arguments:
            yield from self.expression(argument)
        number = self.unit.callee(self.piece, name, dotted)
        if number is None:
            yield (dotted if dotted and name.text in self.unit.monitor_numbers else name).place, UNKNOWN
            return None
        parameters = self.unit.pieces[number].parameters
        if len(arguments) != len(parameters):
            yield (dotted or name).place, MISMATCH
        for argument, parameter in zip(arguments, parameters):
            yield from self.wants(parameter.kind, argument)
        return number

    def taker(self, name, wanted):
        if name.text not in self.locals:
            yield name.place, UNKNOWN
        elif wanted is not None and self.slots[self.locals[name.text]].kind != wanted:
            yield name.place, MISMATCH

    def of_join(self, place, handle, into, aborted):
        yield from self.not_in_recover(place)
        yield from self.typed("PROCESS", handle)
        if into:
            yield from self.taker(into, "INTEGER")
        yield from self.block(aborted)

    def of_return(self, place, e):
        yield from self.not_in_recover(place)
        if (e is None) != (self.piece.result is None):
            yield place, MISMATCH
        if e is not None:
            yield from self.typed(self.piece.result, e)

    def of_wait(self, place, name):
        yield from self.not_in_recover(place)
        yield from self.of_notify(place, name)

    def of_notify(self, place, name):
        if self.piece.monitor is None:
            yield place, WRONG_PLACE
        meaning = self.meaning(name)
        if meaning is None:
            yield name.place, UNKNOWN
        elif meaning[2].kind != "CONDITION":
            yield name.place, MISMATCH

    of_broadcast = of_notify

    def of_print(self, _place, e):
        yield from self.typed("INTEGER", e)

    def of_abort(self, _place):
        yield from ()

    def calls(self, statements):
        """The pieces that statements call."""
        for kind, _, *parts in statements or []:
            if kind == "call":
                number = self.unit.callee(self.piece, *parts[:2])
                yield from () if number is None else (number,)
            elif kind in ("if", "while", "join"):
                for part in parts[1:] if kind != "join" else parts[2:]:
                    yield from self.calls(part)

    # ---- The program that is meant ----

    def meant_use(self, name, index):
        what, number, member = self.meaning(name)
        if what == "local":
            return "local", number
        if index is None:
            return "member", self.piece.monitor, number
        return "element", self.piece.monitor, number, member.size, self.meant(index)

    def meant(self, e):
        if e[0] in ("number", "truth"):
            return "number", e[2]
        if e[0] == "reads":
            return self.meant_use(e[2], e[3])
        if e[0] == "group":
            return self.meant(e[2])
        if e[0] in ("minus", "not"):
            return e[0], self.meant(e[2])
        left = self.meant(e[3])
        for operator, operand in e[4]:
            left = ("both", operator, left, self.meant(operand))
        return left

    def meant_block(self, statements):
        return None if statements is None else [self.meant_statement(*statement) for statement in statements]

    def meant_statement(self, kind, _place, *parts):
        if kind == "assign":
            return kind, self.meant_use(*parts[:2]), self.meant(parts[2])
        if kind in ("if", "while"):
            return kind, self.meant(parts[0]), *map(self.meant_block, parts[1:])
        if kind in ("call", "fork"):
            into = self.locals[parts[3].text] if parts[3] else None
            return kind, self.unit.callee(self.piece, *parts[:2]), [self.meant(e) for e in parts[2]], into
        if kind == "join":
            into = self.locals[parts[1].text] if parts[1] else None
            return kind, self.meant(parts[0]), into, self.meant_block(parts[2])
        if kind in ("wait", "notify", "broadcast"):
            return kind, (self.piece.monitor, self.meaning(parts[0])[1])
        if kind == "abort":
            return (kind,)
        return kind, None if parts[0] is None else self.meant(parts[0])


def unit_of(text):
    """The unit that a text is, by its grammar alone."""
    return Unit(*Parser(tokens_of(text)).unit())


def program_of(text):
    """The program that a text means; a text is a string of bytes as Latin-1."""
    unit = unit_of(text)
    fault = min(unit.faults(), default=None)
    if fault is not None:
        raise Refusal(*fault)
    monitors, at = [], 0
    for monitor in unit.monitors:
        recover = [at + i for i, piece in enumerate(monitor.pieces) if piece.role == "recover"]
        members = [(member.name.text, member.kind, member.size) for member in monitor.members]
        monitors.append(MeantMonitor(monitor.name.text, members, recover[0] if recover else None))
        at += len(monitor.pieces)
    pieces = [Meant(piece.role, piece.monitor, len(piece.parameters), len(piece.parameters) + len(piece.locals), piece.result,
                    Scope(unit, piece).meant_block(piece.body)) for piece in unit.pieces]
    return Program(monitors, pieces)
