"""The crates of crates.txt, their sources, and a key for each."""
from __future__ import annotations

import hashlib
import os
from dataclasses import dataclass

from building import Failure

PARTS = ("src", "specs", "proofs")
# To be raised where what is kept changes its form.
FORM = "1"


@dataclass(frozen=True)
class Crate:
    """A crate of the repository: its line of crates.txt, the crates and the kit's libraries that it uses."""

    name: str
    folder: str
    row: str
    uses: tuple[str, ...]
    of_kit: tuple[str, ...]

    @property
    def is_program(self) -> bool:
        return os.path.isfile(f"{self.folder}/src/main.rt")


def read_crates(root: str) -> dict[str, Crate]:
    """The crates that crates.txt names."""
    below = {}
    with open(f"{root}/crates.txt", encoding="utf-8") as text:
        for line in text:
            row = line.partition("#")[0].strip()
            if row:
                head, _, uses = row.partition(":")
                below[head.split()[0]] = (row, uses.split())
    return {name: Crate(name, f"{root}/crates/{name}", row,
                        tuple(used for used in uses if used in below),
                        tuple(used for used in uses if used not in below))
            for name, (row, uses) in below.items()}


def crates_below(crates: dict[str, Crate], top: str) -> list[Crate]:
    """The crates that a crate stands on, each after those that it uses, and the crate itself at the end."""
    if top not in crates:
        raise Failure(f"crates.txt has no crate {top}")
    found: dict[str, Crate] = {}

    def visit(name: str) -> None:
        for used in crates[name].uses:
            if used not in found:
                visit(used)
        found[name] = crates[name]

    visit(top)
    return list(found.values())


def source_paths(crate: Crate):
    """The files and folders of a crate that its proof is made from, in a fixed order."""
    for part in PARTS:
        for at, folders, files in os.walk(f"{crate.folder}/{part}"):
            folders.sort()
            yield at
            for name in sorted(files):
                yield f"{at}/{name}"


def newer_source(root: str, crates: list[Crate], moment: float) -> str | None:
    """A source that changed after that moment, if there is one. What is removed changes its folder."""
    paths = (path for crate in crates for path in source_paths(crate))
    for path in (f"{root}/crates.txt", *paths):
        if os.stat(path).st_mtime > moment:
            return path
    return None


def digest(crate: Crate) -> str:
    """A sum of the crate's own sources. A link could lead anywhere, so none may stand among them."""
    total = hashlib.sha256()
    for path in source_paths(crate):
        if os.path.islink(path):
            raise Failure(f"{path} is a link: put the file or folder itself there")
        if os.path.isfile(path):
            with open(path, "rb") as source:
                data = source.read()
            total.update(f"{path[len(crate.folder):]}\0{len(data)}\0".encode())
            total.update(data)
    return total.hexdigest()


def keys_of(crates: list[Crate], digests: dict[str, str], kit: str) -> dict[str, str]:
    """A key for each crate, lowest first: of its sources, its line of crates.txt, the kit, and the keys below."""
    keys: dict[str, str] = {}
    for crate in crates:
        parts = [FORM, kit, crate.row, digests[crate.name], *(keys[used] for used in crate.uses)]
        keys[crate.name] = hashlib.sha256("\0".join(parts).encode()).hexdigest()
    return keys


def key_of(crates: list[Crate], kit: str) -> str:
    """The key of the uppermost crate as its sources stand now."""
    return keys_of(crates, {crate.name: digest(crate) for crate in crates}, kit)[crates[-1].name]
