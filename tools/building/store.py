"""What is kept between builds: each proved library with its key, and each program that was built.

It all stands in crates/mesamon_program/out/rlib. git ignores each folder `out`, and of such a folder the gate gives back
the part `rlib` alone, which it takes aside before it begins; in it alone may files stand that end in .rt or .antt.
"""
from __future__ import annotations

import fcntl
import hashlib
import os
import shutil
import sys
from collections.abc import Iterator
from contextlib import contextmanager

HOME = "mesamon_program"
# Smaller files are not worth sharing.
LARGE = 4096


def read_text(file: str) -> str | None:
    """The text of a file, if there is one."""
    try:
        with open(file, encoding="utf-8") as text:
            return text.read()
    except FileNotFoundError:
        return None


def write_text(file: str, text: str) -> None:
    """Writes a file whole, or leaves it as it was."""
    with open(f"{file}.part", "w", encoding="utf-8") as part:
        part.write(text)
    os.replace(f"{file}.part", file)


def remove(path: str) -> None:
    """Removes a file or a folder, if it is there."""
    if os.path.isdir(path) and not os.path.islink(path):
        shutil.rmtree(path)
    elif os.path.lexists(path):
        os.remove(path)


def share(path: str, copies: str) -> None:
    """Has a file share the disk with the one of the same content among the copies, or be the first of them."""
    with open(path, "rb") as data:
        copy = f"{copies}/{hashlib.sha256(data.read()).hexdigest()}"
    try:
        if os.path.exists(copy):
            os.link(copy, f"{path}.part")
            os.replace(f"{path}.part", path)
        else:
            os.link(path, copy)
    except OSError:
        # Some file systems have no such links.
        remove(f"{path}.part")


class Store:
    """The folder of what is kept."""

    def __init__(self, root: str) -> None:
        self.home = f"{root}/crates/{HOME}"
        self.folder = f"{self.home}/out/rlib"
        self.work, self.copies = f"{self.folder}/work", f"{self.folder}/copies"
        self.seconds = f"{self.folder}/seconds.txt"

    def path(self, name: str, ending: str) -> str:
        """Where a crate has its rlib, or of a program the record of its check (checked); its key and log; what is built of it."""
        return f"{self.folder}/{name}.{ending}"

    @contextmanager
    def locked(self) -> Iterator[None]:
        """Keeps others out: a second build waits, as do the kit's own commands in that crate, whose lock it is too."""
        os.makedirs(self.folder, exist_ok=True)
        held = os.open(self.home, os.O_RDONLY)
        try:
            try:
                fcntl.flock(held, fcntl.LOCK_EX | fcntl.LOCK_NB)
            except BlockingIOError:
                print("mesamon: waiting for another build to end", file=sys.stderr, flush=True)
                fcntl.flock(held, fcntl.LOCK_EX)
            yield
        finally:
            os.close(held)

    def has_proved(self, name: str, key: str) -> bool:
        """Whether what the crate's check wrote under this key is still there."""
        is_there = os.path.isfile(f"{self.path(name, 'rlib')}/format") or os.path.isdir(self.path(name, "checked"))
        return is_there and read_text(self.path(name, "key")) == key

    def forget(self, name: str) -> None:
        """Takes away what a crate's check wrote, before it is made anew."""
        for ending in ("key", "rlib", "checked"):
            remove(self.path(name, ending))

    def share_copies(self, name: str) -> None:
        """Has the copies of lower interfaces in a library share the disk with the same copies in other libraries."""
        os.makedirs(self.copies, exist_ok=True)
        for at, _, files in os.walk(f"{self.path(name, 'rlib')}/below"):
            for path in (f"{at}/{file}" for file in files):
                if os.path.getsize(path) >= LARGE:
                    share(path, self.copies)

    def note_cost(self, name: str, seconds: float, megabytes: int, jobs: int = 1) -> None:
        """Writes down what a crate took, in the form of tools/seconds.txt."""
        costs = dict(line.split(" ", 1) for line in (read_text(self.seconds) or "").splitlines())
        costs[name] = f"{seconds:.0f} {megabytes}" + (f" {jobs}" if jobs > 1 else "")
        write_text(self.seconds, "".join(f"{each} {cost}\n" for each, cost in costs.items()))

    def make_work(self) -> str:
        """An empty folder for what the commands of one build make for a time."""
        remove(self.work)
        os.makedirs(self.work)
        return self.work

    def drop_work(self) -> None:
        """Removes what no later build wants."""
        remove(self.work)
        for copy in os.scandir(self.copies) if os.path.isdir(self.copies) else []:
            # No library has it any more.
            if copy.stat().st_nlink == 1:
                remove(copy.path)
        for name in os.listdir(self.folder):
            if name.endswith((".checked", ".o", ".part")):
                remove(f"{self.folder}/{name}")

    def clean(self) -> None:
        """Removes all but the programs."""
        for name in os.listdir(self.folder):
            if not name.endswith((".program", ".built")):
                remove(f"{self.folder}/{name}")
