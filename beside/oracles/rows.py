"""What rows of crates/test_commands have to come to, by docs alone: programs, images, runs and explanations are those of the
other modules here, and nothing is asked of mesamon.

`expected` gives the outcome of a row, or None where it isn't covered: a command or an option that isn't known here, or a run on
several real threads.
"""

import sys

import assembly
from explaining import NAMES, Explainer
from language import Refusal, program_of
from lowering import image_bytes, LINUX, lowered, MOST
from meaning import action_of, line_of, run_of
from other_machine import FAULTS, BadImage, Broken, CannotMove, Machine, image_of
import runs

sys.setrecursionlimit(20000)
KEYS = ("text", "times", "bytes", "again", "schedule", "log", "words", "output", "errors", "room", "output-part", "errors-part",
        "failures", "logged", "image", "status")
WANTED = ("output", "errors", "logged", "image", "status")
# The options that are known here, by their commands; those that end with `=` take a word.
OPTIONS = {
    "check": [], "list": ["linux"], "compile": ["workers=", "image="],
    "run": ["steps=", "in-order", "seed=", "strays=", "kills=", "trace", "log=", "linux"],
    "exec": ["steps=", "in-order", "seed=", "strays=", "kills=", "trace", "log=", "exits=", "assembly"],
    "replay": ["steps=", "trace", "log=", "image", "linux", "exits=", "assembly"],
    "assemble": [], "schedule": ["steps="],
    "explain": ["steps=", "seed=", "strays=", "kills=", "schedule=", "log=", "linux"],
}
FILES = {"check": [["program.mesa"]], "list": [["program.mesa"]], "compile": [["program.mesa", "program.image"]],
         "run": [["program.mesa"]], "exec": [["program.mesa"]], "explain": [["program.mesa"]],
         "replay": [["program.mesa"], ["program.mesa", "program.schedule"]],
         "assemble": [["program.mesa", "program.image"]], "schedule": [["program.log", "program.image"]]}


class NotCovered(Exception):
    """Nothing is said of a row here."""


class FirstVersion(Exception):
    """An image of the first version is to go by Linux's rule of exits."""


class Row:
    """A row: a block of lines that begin with a key, or one line. `first` and `end` are its places among the lines."""

    def __init__(self, name, first):
        self.name, self.first, self.end = name, first, first + 1
        self.lines, self.program = {}, None

    def add(self, key, said, before):
        """Takes a line of the block; `before` is the program of the row before."""
        self.lines.setdefault(key, []).append(said)
        if key == "again":
            self.program = before
        elif key in ("text", "times", "bytes"):
            count, _, text = said.partition(" ") if key == "times" else ("1", "", said)
            more = {"text": said + "\n", "times": text * int(count), "bytes": ""}[key]
            self.program = (self.program or "") + (more or bytes.fromhex(said if key == "bytes" else "").decode("latin-1"))

    def wanted(self):
        """What the row says that has to come, by its keys."""
        return {key: self.lines[key] for key in WANTED if key in self.lines}


def rows_of(lines):
    """The rows of a file's lines: the blocks, and the rows of one line, whose name is the line."""
    found, row, before = [], None, None
    for at, line in enumerate(lines):
        key, _, said = line.partition(" ")
        if not line or line.startswith("#"):
            continue
        if key == "row":
            before = row.program if row is not None else before
            row = Row(said, at)
            found.append(row)
        elif key in KEYS and row is not None:
            row.add(key, said, before)
            row.end = at + 1
        else:
            found.append(Row(line, at))
    return found


# ---- Words ----

def words_of(row):
    """The command of a row, its files, and its options with the words that they take."""
    words = " ".join(row.lines.get("words", [])).split()
    command = words.pop(0) if words else None
    if command not in OPTIONS:
        raise NotCovered
    files, options = [], {}
    while words:
        word = words.pop(0)
        if word == "--":
            files += words
            break
        if not word.startswith("--"):
            files.append(word)
            continue
        name, equals, value = word[2:].partition("=")
        if name + "=" in OPTIONS[command]:
            value = value if equals else (words.pop(0) if words else "")
        elif equals or name not in OPTIONS[command]:
            raise NotCovered
        if name in options:
            raise NotCovered
        options[name] = value
    if files not in FILES[command] or row.program is None and command != "schedule":
        raise NotCovered
    return command, files, options


def number(options, name, default, least=0, most=2**32 - 1):
    if name not in options:
        return default
    value = options[name]
    if not (value.isascii() and value.isdigit()) or not least <= int(value) <= most:
        raise NotCovered
    return int(value)


# ---- Commands ----

class Outcome:
    """What comes of a command."""

    def __init__(self, output=(), errors=(), status=0, image=None, logged=None):
        self.output, self.errors, self.status, self.image, self.logged = output, errors, status, image, logged

    def lines(self):
        """The same as a row says it, by its keys."""
        lines = {"output": list(self.output), "errors": list(self.errors)}
        if self.logged is not None:
            lines["logged"] = self.logged or [""]
        if self.image is not None:
            lines["image"] = [self.image.hex()]
        if self.status:
            lines["status"] = [str(self.status)]
        return {key: value for key, value in lines.items() if value}


def expected(row):
    """What has to come of a row that is a block, by its keys, or None."""
    if set(row.lines) & {"room", "output-part", "errors-part", "failures"}:
        return None
    try:
        command, files, options = words_of(row)
        return globals()["do_" + command](row, files, options).lines()
    except NotCovered:
        return None
    except (Refusal, assembly.Refusal) as refusal:
        return Outcome(errors=[refusal.line()], status=1).lines()
    except FirstVersion:
        return Outcome(errors=["image of version 1, by Linux's exits"], status=6).lines()
    except BadImage as fault:
        return Outcome(errors=[f"image error {fault.args[0]} {FAULTS[fault.args[0]]}"], status=6).lines()
    except Broken:
        return Outcome(errors=["fault 4"], status=6).lines()


def do_check(row, _files, _options):
    program_of(row.program)
    return Outcome(["ok"])


def do_compile(row, _files, options):
    number(options, "workers", 1, 1, 64)
    code = lowered(program_of(row.program), number(options, "image", 2, 1, 2))
    return Outcome([f"ok {len(code.code)} instructions"], image=image_bytes(code))


def do_assemble(row, _files, _options):
    image = assembly.image_of_text(row.program)
    return Outcome([f"ok {len(image_of(image)[3])} instructions"], image=image)


def do_list(row, _files, options):
    _, _, _, code = code_and_image(row, options)[1] if "linux" in options else image_of(row.program.encode("latin-1"))
    return Outcome([f"{at:05} {shown(instruction)}" for at, instruction in enumerate(code)])


def shown(instruction):
    """An instruction as it is listed."""
    return " ".join([NAMES[instruction[0]], *map(str, instruction[1:])])


def code_and_image(row, options):
    code = lowered(program_of(row.program), LINUX if "linux" in options else 2)
    return code, image_of(image_bytes(code))


def machine_of(image, options):
    """The machine of an image, by the rule of exits that is asked for."""
    if options.get("exits", "machine") not in ("machine", "linux"):
        raise NotCovered
    return Machine(image, linux="linux" in options or options.get("exits") == "linux")


def given_image(row, options):
    """The image of a row, which is of the second version where Linux's rule of exits is asked for by name."""
    image = image_of(assembly.image_of_text(row.program) if "assembly" in options else row.program.encode("latin-1"))
    if options.get("exits") == "linux" and image[0] == MOST[1]:
        raise FirstVersion
    return image


def do_run(row, _files, options):
    return ran(code_and_image(row, options)[1], options)


def do_exec(row, _files, options):
    return ran(given_image(row, options), options)


def ran(image, options):
    """A run by the program's own choice."""
    machine, name = machine_of(image, options), row_log(options)
    log = list(entries_by(machine, options, "in-order" in options))
    return told(machine, log, options, None if name is None else log)


def most_steps(options):
    """The most steps of a run, or of a log that is read."""
    return number(options, "steps", 1000000, 1)


def row_log(options):
    if options.get("log", "program.log") != "program.log":
        raise NotCovered
    return options.get("log")


def entries_by(machine, options, in_order):
    """The entries of a run in order or by a seed; of one on real threads they are known where there is one thread alone."""
    limit, seed = most_steps(options), number(options, "seed", None, 0, 2**64 - 1)
    strays, kills = number(options, "strays", 0, 1), number(options, "kills", 0)
    if seed is None and (strays or kills) or seed is not None and "in-order" in options:
        raise NotCovered
    if seed is not None:
        yield from runs.by_seed(machine, limit, seed, strays, kills)
        return
    for entry in runs.in_order(machine, limit):
        if not in_order and len(machine.threads) > 1:
            raise NotCovered
        yield entry


def told(machine, log, options, logged):
    lines = [runs.line_of(entry) for entry in log]
    errors = (lines if "trace" in options else []) + runs.account(machine)
    return Outcome(map(str, machine.output), errors, runs.STATUS[machine.verdict()],
                   logged=None if logged is None else [runs.line_of(entry) for entry in logged])


class Refused(Exception):
    """An entry of a schedule or a log can't be taken; its number."""


def do_replay(row, files, options):
    by_log, forms = len(files) == 1, {"image", "assembly"} & set(options)
    if by_log and "log" not in options or not by_log and "steps" in options or len(forms) == 2:
        raise NotCovered
    if "exits" in options and not forms or "linux" in options and forms:
        raise NotCovered
    machine = machine_of(given_image(row, options) if forms else code_and_image(row, options)[1], options)
    row_log(options)
    try:
        log = list(log_entries(row, machine, options) if by_log else schedule_entries(row, machine))
    except Refused as refused:
        return Outcome(errors=[refused.args[0]], status=6)
    return told(machine, log, options, log if "log" in options and not by_log else None)


def schedule_entries(row, machine):
    """The entries of a row's schedule."""
    if "schedule" not in row.lines:
        raise NotCovered
    turns = " ".join(row.lines["schedule"]).split()
    for at, word in enumerate(turns, 1):
        try:
            yield from runs.by_schedule(machine, runs.turns_of(word))
        except (CannotMove, ValueError):
            raise Refused(f"schedule entry {at}") from None
        except Broken:
            raise Refused(f"schedule entry {at}: fault 4") from None


def read_log(row, options):
    """The entries of a row's log, which has no more steps than it may have."""
    if "log" not in row.lines:
        raise NotCovered
    entries = [runs.entry_of(line) for at, line in enumerate(row.lines["log"]) if line or at]
    if None in entries:
        raise Refused(f"log line {entries.index(None) + 1}")
    if sum(map(runs.cost_of, entries)) > most_steps(options):
        raise Refused(f"log of more than {most_steps(options)} steps")
    return entries


def log_entries(row, machine, options):
    """The entries that come of a row's log, whose values aren't compared."""
    for at, entry in enumerate(read_log(row, options), 1):
        try:
            yield runs.by_entry(machine, entry)
        except (CannotMove, Broken):
            raise Refused(f"log entry {at}") from None


def do_schedule(row, _files, options):
    try:
        turns = [turn for entry in read_log(row, options) for turn in turns_of_entry(*entry)]
    except Refused as refused:
        return Outcome(errors=[refused.args[0]], status=6)
    return Outcome([f"ok {len(turns)} steps"], image="".join(turn + "\n" for turn in turns).encode())


def turns_of_entry(thread, count, event):
    """The turns of a schedule that an entry of a log is."""
    if event is not None and event[0] in ("STRAY", "KILL"):
        return [f"{'s' if event[0] == 'STRAY' else 'k'}{thread}"]
    return [str(thread)] * (count + (event is not None))


def do_explain(row, _files, options):
    code, image = code_and_image(row, options)
    if len({"seed", "schedule", "log"} & set(options)) > 1 or options.get("schedule", "program.schedule") != "program.schedule":
        raise NotCovered
    if {"schedule", "log"} & set(options) and {"strays", "kills"} & set(options) or {"schedule", "steps"} <= set(options):
        raise NotCovered
    row_log(options)
    explainer = Explainer(code, machine_of(image, options))
    try:
        for entry in explained_entries(row, image, options):
            explainer.follow(entry)
    except Refused as refused:
        return Outcome(errors=[refused.args[0]], status=6)
    actions = explainer.finish()
    return Outcome([line_of(code.program, action) for action in actions], status=runs.STATUS[explainer.machine.verdict()])


def explained_entries(row, image, options):
    """The entries that are explained, all of which are legal."""
    machine = machine_of(image, options)
    if "log" not in options:
        yield from schedule_entries(row, machine) if "schedule" in options else entries_by(machine, options, True)
        return
    for at, entry in enumerate(read_log(row, options), 1):
        if not machine.takes(entry):
            raise Refused(f"log entry {at}")
        yield entry


# ---- Rows of one line ----

def expected_line(row):
    """What has to be printed of a row of one line, or None."""
    kind, _, said = row.name.partition(" ")
    if kind not in ("actions", "actions-as-one"):
        return None
    actions, _, text = said.partition(" | ")
    program = program_of(text)
    actions = [action_of(program, line) for line in actions.split(",") if line.strip()]
    state, count = run_of(program, actions, MOST[1 if kind == "actions-as-one" else 2])
    if count < len(actions):
        return "no run" if kind == "actions-as-one" else f"no run, action {count + 1}"
    movers, printed = ("".join(f" {it}" for it in numbers) for numbers in (state.movers(), state.printed))
    return f"run, movers{movers}, printed{printed}"
