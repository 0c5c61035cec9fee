#!/usr/bin/env python3
"""Writes a program as C that calls the templates of include/mesa_monitors.h by their functions, as somebody would who takes the
header: ./beside/kernel/header_c.py FILE OUT. ./beside/kernel/check tries the header by it, beside the C of `mesamon emit`.

Each operand of an expression is kept in a variable of its own, since C doesn't say which argument of a call comes first.
"""

import os
import sys

sys.dont_write_bytecode = True
ROOT = os.path.dirname(os.path.dirname(os.path.dirname(os.path.abspath(__file__))))
sys.path[:0] = [os.path.join(ROOT, "beside/oracles")]
from language import program_of  # noqa: E402

FAULTY = {"+": "add", "-": "subtract", "*": "multiply", "/": "divide", "MOD": "modulo"}
CALM = {"=": "equal", "#": "not_equal", "<": "less", "<=": "less_equal", ">": "greater", ">=": "greater_equal", "AND": "and",
        "OR": "or"}


class Function:
    """The lines of a piece's function."""

    def __init__(self, program, number):
        self.program, self.piece, self.lines, self.deep, self.values = program, program.pieces[number], [], 1, 0
        if self.piece.role == "entry":
            self.guarded(f"mesa_enter(self, &{lock(self.piece.monitor)})", self.piece.monitor)
        self.block(self.piece.body)
        self.put_return(None)

    def line(self, text):
        self.lines.append("    " * self.deep + text)

    def open(self, text):
        self.line(text)
        self.deep += 1

    def close(self, text="}"):
        self.deep -= 1
        self.line(text)

    def keep(self, text):
        """A variable that has this value."""
        self.values += 1
        self.line(f"int32_t value_{self.values} = {text};")
        return f"value_{self.values}"

    def guarded(self, call, monitor):
        """A call that answers whether the monitor was found abandoned."""
        recover = self.program.monitors[monitor].recover
        self.open(f"if ({call})")
        self.line("mesa_fault(self, MESA_ABANDONED_MONITOR);" if recover is None else f"procedure_{recover}(self);")
        self.deep -= 1

    # ---- Expressions ----

    def expression(self, e):
        what, *parts = e
        if what == "number":
            return str(parts[0])
        if what == "local":
            return f"local_{parts[0]}"
        if what in ("member", "element"):
            return self.keep(self.place(what, *parts))
        if what in ("minus", "not"):
            return self.keep(f"mesa_{'negate(self, ' if what == 'minus' else 'not('}{self.expression(parts[0])})")
        operator, left, right = parts[0], self.expression(parts[1]), self.expression(parts[2])
        if operator in FAULTY:
            return self.keep(f"mesa_{FAULTY[operator]}(self, {left}, {right})")
        return self.keep(f"mesa_{CALM[operator]}({left}, {right})")

    def place(self, what, monitor, member, *array):
        """A member, or an element whose index was tested."""
        name = f"{monitor_name(monitor)}.member_{member}_"
        if what == "member":
            return name
        size, index = array[0], self.expression(array[1])
        self.values += 1
        self.line(f"int32_t *place_{self.values} = mesa_element(self, {name}, {size}, {index});")
        return f"*place_{self.values}"

    # ---- Statements ----

    def block(self, statements):
        for kind, *parts in statements:
            self.open("{")
            getattr(self, "put_" + kind)(*parts)
            self.close()

    def put_assign(self, target, e):
        place = f"local_{target[1]}" if target[0] == "local" else self.place(*target)
        value = self.expression(e)
        if place != value:
            self.line(f"{place} = {value};")

    def put_if(self, test, then, other):
        self.open(f"if ({self.expression(test)} != 0) {{")
        self.block(then)
        if other is not None:
            self.close("} else {")
            self.deep += 1
            self.block(other)
        self.close()

    def put_while(self, test, body):
        self.open("for (;;) {")
        self.line(f"if ({self.expression(test)} == 0)")
        self.line("    break;")
        self.block(body)
        self.close()

    def put_call(self, number, arguments, into):
        values = "".join(f", {self.expression(e)}" for e in arguments)
        self.line(("" if into is None else f"local_{into} = ") + f"procedure_{number}(self{values});")

    def put_fork(self, number, arguments, into):
        values = ", ".join(self.expression(e) for e in arguments)
        array = f"(const int32_t[]){{{values}}}" if arguments else "NULL"
        self.line(f"local_{into} = mesa_fork(self, start_{number}, {array}, {len(arguments)});")

    def put_join(self, handle, into, aborted):
        result = "NULL" if into is None else f"&local_{into}"
        self.open(f"if (!mesa_join(self, {self.expression(handle)}, {result})) {{")
        if aborted is None:
            self.line("mesa_fault(self, MESA_JOINED_ABORTED);")
        else:
            self.block(aborted)
        self.close()

    def put_return(self, e):
        value = "0" if e is None else self.keep(self.expression(e))
        if self.piece.role == "entry":
            self.line(f"mesa_exit(self, &{lock(self.piece.monitor)});")
        self.line(f"return {value};")

    def put_wait(self, condition):
        self.guarded(f"mesa_wait(self, &{lock(condition[0])}, &{self.place('member', *condition)})", condition[0])

    def put_notify(self, condition):
        self.line(f"mesa_notify(self, &{self.place('member', *condition)});")

    def put_broadcast(self, condition):
        self.line(f"mesa_broadcast(self, &{lock(condition[0])}, &{self.place('member', *condition)});")

    def put_print(self, e):
        self.line(f"mesa_print({self.expression(e)});")

    def put_abort(self):
        self.line("mesa_fault(self, MESA_ABORTED);")


def monitor_name(number):
    return f"monitor_{number}_"


def lock(monitor):
    return f"{monitor_name(monitor)}.monitor"


def monitor_text(number, monitor):
    lines = ["MESA_UNUSED static struct {", "    struct mesa_monitor monitor;"]
    for member, (_, kind, size) in enumerate(monitor.members):
        kind = "struct mesa_condition" if kind == "CONDITION" else "int32_t"
        lines.append(f"    {kind} member_{member}_{f'[{size}]' if size else ''};")
    return "\n".join(lines + [f"}} {monitor_name(number)};", ""])


def head(number, piece):
    parameters = "".join(f", int32_t local_{slot}" for slot in range(piece.parameters))
    return f"MESA_UNUSED static int32_t procedure_{number}(struct mesa_process *self{parameters})"


def start_text(number, piece):
    values = "".join(f", arguments[{slot}]" for slot in range(piece.parameters))
    return (f"MESA_UNUSED static int32_t start_{number}(struct mesa_process *self, const int32_t *arguments)\n{{\n"
            f"    (void)arguments;\n    return procedure_{number}(self{values});\n}}\n")


def function_text(program, number):
    piece = program.pieces[number]
    lines = [head(number, piece), "{"]
    lines += [f"    int32_t local_{slot} = 0;" for slot in range(piece.parameters, piece.locals)]
    lines += ["    (void)self;"] + [f"    (void)local_{slot};" for slot in range(piece.locals)]
    return "\n".join(lines + Function(program, number).lines + ["}", ""])


def c_text(program):
    """The program as C."""
    pieces = range(len(program.pieces))
    parts = ['#include "mesa_monitors.h"\n', *(monitor_text(*it) for it in enumerate(program.monitors))]
    parts.append("".join(head(number, program.pieces[number]) + ";\n" for number in pieces))
    parts += [start_text(number, program.pieces[number]) for number in pieces]
    parts += [function_text(program, number) for number in pieces]
    return "\n".join(parts + [f"int main(void)\n{{\n    mesa_run(start_{len(pieces) - 1});\n}}\n"])


def main():
    with open(sys.argv[1], encoding="latin-1") as file:
        text = c_text(program_of(file.read()))
    with open(sys.argv[2], "w") as file:
        file.write(text)
    print("ok")


if __name__ == "__main__":
    main()
