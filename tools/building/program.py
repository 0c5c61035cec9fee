"""A program of the repository, and whether it is built of the sources that stand here."""
from __future__ import annotations

import os

from building import Failure
from building.crates import Crate, crates_below, key_of, newer_source, read_crates
from building.store import HOME, Store


class Program:
    """A program of the repository, or a library that is proved alone."""

    def __init__(self, root: str, name: str) -> None:
        self.root, self.name = root, name
        self.below = crates_below(read_crates(root), name)
        self.crate: Crate = self.below[-1]
        self.out = f"{self.crate.folder}/out"
        self.made = f"{self.out}/{name}"
        # Its time is that at which the sources were read of which the program was built.
        self.begun = f"{self.out}/begun"
        # Of which sources that program was built, and by which kit: two lines.
        self.built = f"{self.out}/built"

    def is_new(self) -> bool:
        """Whether the program stands, and no source has changed since it was begun: by the times of files alone."""
        if not (os.access(self.made, os.X_OK) and os.path.isfile(self.built) and os.path.isfile(self.begun)):
            return False
        return newer_source(self.root, self.below, os.stat(self.begun).st_mtime) is None


def do(root: str, words: list[str]) -> int:
    """Does what the words ask for, and answers the exit status."""
    options = [word for word in words[:1] if word.startswith("-")]
    words = words[len(options):]
    if options == ["--clean"] and not words:
        store = Store(root)
        with store.locked():
            store.clean()
        return 0
    program = Program(root, words[0] if words else HOME)
    if options == ["--state"]:
        return 0 if program.is_new() else 1
    if options == ["--key"]:
        from building.kit import Kit
        print(key_of(program.below, Kit.found().identity()))
        return 0
    if options:
        raise Failure(f"no option {options[0]}: see tools/build_program --help")
    if not program.is_new():
        # (what builds isn't read where nothing is to be built)
        from building.build import build
        build(root, program.name, words[1:])
    return 0
