"""Assembles a text after docs/assembly.md and docs/image.md: `image_of_text` gives the bytes of its image, or raises the Refusal
that the page has for it. It shares no code with the crates.
"""

import re
from collections import namedtuple
from itertools import groupby

from lowering import number_bytes, OPCODES

UNKNOWN, TWICE, NUMBER, OPERANDS, PLACE, LIMIT, START, NAME = range(1, 9)
KINDS = ["", "Unknown", "Twice", "Number", "Operands", "Place", "Limit", "Start", "Name"]
MOST_MONITORS, MOST_MEMBERS, MOST_INSTRUCTIONS, MOST_LOCALS, WORDS = 64, 1024, 1 << 16, 64, 1 << 32
# The first word of the monitors, by the version.
BASES = {1: 385, 2: 6001}
PROCESS_WORDS = ["@head", "@pending", "@id", "@claim", "@result", "@outcome"]
# How many operands instructions take, but for CALL and FORK.
TAKES = {"SETL": 1, "POP": 1, "NEG": 1, "NOT": 1, "JZ": 1, "RETV": 1, "INDEX": 1, "PADDR": 1, "LOAD": 1, "PRINT": 1, "CAS": 3,
         "FREQ": 5, "PUSH": 0, "GETL": 0, "JUMP": 0, "RET": 0, "SELF": 0, "FAULT": 0, "CALL": 0, "FORK": 0}
# What belongs to an instruction itself: numbers, a local, a place, the number of a process word, of a fault, of arguments.
PARTS = {"PUSH": "n", "GETL": "l", "SETL": "l", "JUMP": "p", "JZ": "p", "CALL": "p", "INDEX": "nn", "PADDR": "w", "FAULT": "f",
         "FORK": "pa"}
ALLOWED = {"n": range(WORDS), "l": range(MOST_LOCALS + 1), "p": range(WORDS), "w": range(6), "f": range(1, 9), "a": range(17)}
WITHOUT_ANSWER = {"SETL", "POP", "JUMP", "JZ", "RET", "RETV", "FAULT", "STORE", "PRINT"}

# A word of a line, with its line and column; and an instruction, with the word that it comes of, and what belongs to it.
Word = namedtuple("Word", "text place")
Step = namedtuple("Step", "name word parts")


class Refusal(Exception):
    """Why a text is refused: a place, a line and a column, and the number of the refusal."""

    def line(self):
        (line, column), kind = self.args
        return f"{line}:{column}: error {kind} {KINDS[kind]}"


def words_of(line, number):
    return [Word(found[0], (number, found.start() + 1)) for found in re.finditer(r"[;:]|[^ \t\r;:]+", line.split("--")[0])]


def number_of(text, place, allowed=range(-(1 << 31), WORDS)):
    """The word of 32 bits that a number stands for."""
    if not re.fullmatch(r"-?[0-9]+|0x[0-9A-Fa-f]+", text):
        raise Refusal(place, NUMBER)
    value = int(text, 16 if text.startswith("0x") else 10)
    if value not in allowed:
        raise Refusal(place, NUMBER)
    return value % WORDS


def is_number(text):
    return text[0].isdigit() or text[0] == "-"


class Text:
    """What is read of a text: its declarations, and its steps."""

    def __init__(self):
        self.version, self.start, self.monitors = None, None, []
        # What names mean: a kind and a number. An address is one behind the first word of the locks or of the words.
        self.names, self.locks, self.words, self.locals, self.steps = {}, 0, 0, 0, []

    def read(self, line, number):
        words = words_of(line, number)
        if words and words[0].text.isdigit() and [word.text for word in words[1:2]] != [":"]:
            if int(words[0].text) != len(self.steps):
                raise Refusal(words[0].place, PLACE)
            words = words[1:]
        while [word.text for word in words[1:2]] == [":"]:
            self.declare(words[0], "label", len(self.steps))
            words = words[2:]
        declaration = getattr(self, "declare_" + words[0].text.lower(), None) if words and words[0].text.isupper() else None
        if declaration:
            declaration(words[0], words[1:])
            return
        for is_end, step in groupby(words, lambda word: word.text == ";"):
            if not is_end:
                self.step(list(step))

    # ---- Declarations ----

    def declare(self, word, kind, number, name=None):
        name = word.text if name is None else name
        if not re.fullmatch(r"[A-Za-z_][A-Za-z0-9_]*", name) or name in ("SELF", "_"):
            raise Refusal(word.place, NAME)
        if name in self.names:
            raise Refusal(word.place, TWICE)
        self.names[name] = kind, number

    def declare_version(self, word, words):
        if self.version is not None:
            raise Refusal(word.place, TWICE)
        if len(words) != 1:
            raise Refusal(word.place, OPERANDS)
        self.version = number_of(words[0].text, words[0].place, (1, 2))

    def declare_start(self, word, words):
        if self.start is not None:
            raise Refusal(word.place, TWICE)
        if len(words) != 1:
            raise Refusal(word.place, OPERANDS)
        self.start = words[0]

    def declare_word(self, word, words):
        if not words:
            raise Refusal(word.place, OPERANDS)
        for declared in words:
            name, bracket, rest = declared.text.partition("[")
            count = number_of(rest[:-1] if rest.endswith("]") else "", declared.place, range(1, WORDS)) if bracket else 1
            self.declare(declared, "word", self.words, name)
            self.words += count
            if sum(self.monitors) + self.words > MOST_MEMBERS:
                raise Refusal(declared.place, LIMIT)
            self.test_monitors(declared)

    def declare_lock(self, word, words):
        if not words:
            raise Refusal(word.place, OPERANDS)
        for declared in words:
            self.declare(declared, "lock", self.locks)
            self.locks += 1
            self.test_monitors(declared)

    def declare_local(self, word, words):
        if not words:
            raise Refusal(word.place, OPERANDS)
        for declared in words:
            self.declare(declared, "local", self.locals)
            self.locals += 1
            if self.locals > MOST_LOCALS:
                raise Refusal(declared.place, LIMIT)

    def declare_const(self, word, words):
        if len(words) != 2:
            raise Refusal(word.place, OPERANDS)
        self.declare(words[0], "constant", number_of(words[1].text, words[1].place))

    def declare_monitors(self, word, words):
        if not words:
            raise Refusal(word.place, OPERANDS)
        for declared in words:
            self.monitors.append(number_of(declared.text, declared.place, range(WORDS)))
            if sum(self.monitors) + self.words > MOST_MEMBERS:
                raise Refusal(declared.place, LIMIT)
            self.test_monitors(declared)

    def test_monitors(self, word):
        if len(self.monitors) + self.locks + (self.words > 0) > MOST_MONITORS:
            raise Refusal(word.place, LIMIT)

    # ---- Steps ----

    def add(self, name, word, *parts):
        self.steps.append(Step(name, word, parts))
        if len(self.steps) > MOST_INSTRUCTIONS:
            raise Refusal(word.place, LIMIT)

    def step(self, words):
        arrow = next((at for at, word in enumerate(words) if word.text == "->"), len(words))
        answer = words[arrow + 1:]
        if arrow < len(words) and len(answer) != 1:
            raise Refusal(words[arrow].place, OPERANDS)
        if arrow == 0:
            raise Refusal(answer[0].place, OPERANDS)
        first, operands = words[0], words[1:arrow]
        name = {"JNZ": "JZ", "ASSERT": "NOT"}.get(first.text, first.text)
        if name not in OPCODES:
            raise Refusal(first.place, UNKNOWN)
        parts = self.parts_of(first, name, operands)
        if first.text == "JNZ":
            self.add("NOT", first)
        if name == "PUSH":
            self.push(parts[0])
        else:
            self.add(name, first, *parts)
        if first.text == "ASSERT":
            self.add("JZ", first, len(self.steps) + 2)
            self.add("FAULT", first, 6)
        if answer:
            if name in WITHOUT_ANSWER or first.text == "ASSERT":
                raise Refusal(answer[0].place, OPERANDS)
            self.add(*(("POP", answer[0]) if answer[0].text == "_" else ("SETL", answer[0], answer[0])))

    def parts_of(self, first, name, words):
        """What belongs to an instruction itself; its operands are pushed."""
        count = len(PARTS.get(name, ""))
        if name in ("CALL", "FORK"):
            parts, operands = words[:count], words[count:]
            if name == "FORK" and len(parts) == 1:
                parts = [*parts, Word("0", first.place)]
        else:
            parts, operands = words[len(words) - count:] if count else [], words[:len(words) - count]
        if len(parts) != count:
            raise Refusal(first.place, OPERANDS)
        most = len(operands) if name in ("CALL", "FORK") else TAKES.get(name, 2)
        if len(operands) > most:
            raise Refusal(first.place, OPERANDS)
        if name == "FORK" and operands and len(operands) != number_of(parts[1].text, parts[1].place):
            raise Refusal(first.place, OPERANDS)
        for word in [*operands, *parts]:
            if is_number(word.text):
                number_of(word.text, word.place)
        for operand in operands:
            self.push(operand)
        return parts

    def push(self, operand):
        if operand.text == "SELF":
            self.add("SELF", operand)
        elif operand.text in PROCESS_WORDS:
            self.add("SELF", operand)
            self.add("PADDR", operand, PROCESS_WORDS.index(operand.text))
        else:
            self.add("OPERAND", operand, operand)

    # ---- Names ----

    def meaning(self, word):
        """The kind and the number that a word stands for."""
        if is_number(word.text):
            return "number", number_of(word.text, word.place)
        name, plus, more = word.text.partition("+")
        lock = name.endswith(".lock")
        kind, number = self.names.get(name.removesuffix(".lock"), (None, None))
        if kind is None or lock and kind != "lock" or plus and kind not in ("word", "lock"):
            raise Refusal(word.place, UNKNOWN)
        if kind in ("word", "lock"):
            number = self.address(kind, number) + lock
        return kind, number_of(str(number + number_of(more, word.place)), word.place) if plus else number

    def address(self, kind, number):
        base = BASES[self.version or 2] + sum(self.monitors) + 2 * len(self.monitors)
        return base + 2 * number if kind == "lock" else base + 2 * self.locks + 2 + number

    def instruction(self, step):
        """An instruction with its parts, as numbers."""
        name, word, parts = step
        if name == "OPERAND":
            kind, number = self.meaning(parts[0])
            return ("GETL" if kind == "local" else "PUSH"), number
        numbers = []
        for part, role in zip(parts, PARTS.get(name, "")):
            kind, number = ("number", part) if isinstance(part, int) else self.meaning(part)
            wanted = {"l": ("local", "number"), "p": ("label", "number")}.get(role, ("number", "constant", "word", "lock", "label"))
            if kind not in wanted:
                raise Refusal(part.place, UNKNOWN)
            if number not in ALLOWED[role]:
                raise Refusal(word.place, LIMIT)
            if role == "p" and number >= len(self.steps):
                raise Refusal(word.place, PLACE)
            numbers.append(number)
        return name, *numbers

    def image(self):
        if not self.steps:
            raise Refusal((1, 1), START)
        code = [self.instruction(step) for step in self.steps]
        start = 0 if self.start is None else self.meaning(self.start)[1]
        if start >= len(code):
            raise Refusal(self.start.place, START)
        members = [*self.monitors, *[0] * self.locks, *([self.words] if self.words else [])]
        found = bytearray(b"MFUT" + bytes([self.version or 2]))
        for number in [len(members), *members, start, len(code)]:
            found += number_bytes(number)
        for name, *numbers in code:
            found.append(OPCODES[name])
            for number in numbers:
                found += number_bytes(number)
        return bytes(found)


def image_of_text(text):
    """The bytes of the image of a text."""
    read = Text()
    for number, line in enumerate(text.split("\n"), 1):
        read.read(line, number)
    return read.image()


def told(text):
    """The digits of the bytes of a text's image, or the line of its refusal."""
    try:
        return image_of_text(text).hex()
    except Refusal as refusal:
        return refusal.line()
