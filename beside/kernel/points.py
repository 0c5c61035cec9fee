"""Which point of the protocol stands before each shared instruction of an image: the templates of beside/oracles have them in
the order of their shared instructions (crates/protocol/specs/Points.antt has the names)."""

import kills
from lowering import LINUX, SHARED, Code

POINTS = {
    "ENTER": "ENTER_PENDS ENTER_TRIES",
    "TAKE": "TAKE_READS TAKE_MARKS TAKE_SLEEPS TAKE_TRIES",
    "GOT": "GOT_READS GOT_LINKS GOT_HEADS GOT_UNPENDS",
    "LEAVE linux": "LEAVE_PENDS LEAVE_READS LEAVE_HEADS LEAVE_DROPS LEAVE_WAKES",
    "EXIT": "HAS_LEFT",
    "WAIT": "WAIT_READS WAIT_SLEEPS",
    "NOTIFY": "NOTIFY_ADDS NOTIFY_WAKES",
    "BROADCAST": "BROADCAST_ADDS BROADCAST_MARKS BROADCAST_READS BROADCAST_MOVES",
    "JOIN": "JOIN_CLAIMS JOIN_READS JOIN_SLEEPS JOIN_LEARNS JOIN_TAKES",
}


class Pointed(Code):
    """Code, and of each place the point that stands there, None where there is none."""

    def __init__(self, program):
        self.points, self.left = [], iter(())
        super().__init__(program, LINUX)
        for piece in program.pieces:
            self.piece(piece)

    def put(self, name, *operands, mark=None):
        self.points.append(next(self.left, None) if name in SHARED.split() else None)
        return super().put(name, *operands, mark=mark)

    def template(self, name, words, parts):
        before, self.left = self.left, iter(POINTS[name].split())
        super().template(name, words, parts)
        self.left = before

    def block(self, statements):
        before, self.left = self.left, iter(())
        super().block(statements)
        self.left = before


def table(program):
    """The points of a program's places by their numbers, as C."""
    numbers = [-1 if point is None else kills.POINTS.index(point) for point in Pointed(program).points]
    lines = [", ".join(map(str, numbers[at:at + 30])) for at in range(0, len(numbers), 30)]
    return "\nconst signed char mesa_points[] = {\n    " + ",\n    ".join(lines) + "\n};\n"
