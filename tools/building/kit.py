"""The kit of Rattle: where it stands, and the words by which its commands prove, compile and link a crate."""
from __future__ import annotations

import os
import re
import shutil

from building import Failure
from building.crates import Crate

TARGET = "x86_64-unknown-linux-gnu"
# The last line of a check that a build may rest on, as the gate has it: the pinned logic, and nothing trusted but what the
# kit built and what this driver keeps. So a line with `pinned=no`, `cache=trusted`, `incremental=trusted`, `bugs=`,
# `hides=`, `foreign=`, `may-abort=` or a word that isn't known here counts as a refusal.
PROVED = re.compile(r"logic=proved( (functions|axioms|target|cpu|threads|main|may-wait|sum)=\S+)+"
                    r" native=nat,char,string logic-built=trusted libraries-built=trusted statements=trusted")


class Kit:
    """A kit, by its folder."""

    def __init__(self, folder: str) -> None:
        self.folder = folder
        self.rattle = f"{folder}/bin/rattle"

    @staticmethod
    def found() -> Kit:
        """The kit whose command `rt` is on the PATH."""
        command = shutil.which("rt")
        if command is None:
            raise Failure("rt, whose kit proves and builds the program, isn't on the PATH: see README.md")
        return Kit(os.path.dirname(os.path.dirname(os.path.realpath(command))))

    def version(self) -> str:
        """The kit's one-line identity, as `rt version` prints it."""
        with open(f"{self.folder}/KIT-ID", encoding="utf-8") as text:
            return text.read().strip()

    def identity(self) -> str:
        """All that the kit says of what it was made of: no two kits have the same."""
        with open(f"{self.folder}/WHAT", encoding="utf-8") as text:
            return f"{self.version()}\n{text.read()}"

    def _crate_words(self, crate: Crate, libraries: str) -> list[str]:
        words = ["--crate-name", crate.name, "src/main.rt" if crate.is_program else "src/lib.rt"]
        for name in ("std", *crate.of_kit):
            words += ["--extern", f"{name}={self.folder}/rlibs/{name}.rlib"]
        words += ["-L", f"dependency={self.folder}/rlibs", "-L", f"dependency={libraries}"]
        for name in crate.uses:
            words += ["--extern", f"{name}={libraries}/{name}.rlib"]
        words += ["--antt-project", f"{self.folder}/rattle/logic/antt-project.json"]
        # The crate names nothing to link: so it may declare no function of C.
        return [*words, "--links", f"{crate.name}="]

    def prove(self, crate: Crate, libraries: str, jobs: int) -> list[str]:
        """Proves a crate from nothing: of a library the rlib with its statements is made, of a program its record."""
        words = [*self._crate_words(crate, libraries), "--logic-built", f"{self.folder}/logic_built", "--jobs", str(jobs)]
        if crate.is_program:
            return [self.rattle, "check", *words, "-o", f"{libraries}/{crate.name}.checked"]
        return [self.rattle, "build", *words, "--statements", "-o", f"{libraries}/{crate.name}.rlib"]

    def compile(self, crate: Crate, libraries: str, made: str) -> list[str]:
        """Compiles by LLVM what a check proved and recorded."""
        words = [*self._crate_words(crate, libraries), "--crate-checked", f"{libraries}/{crate.name}.checked"]
        return [self.rattle, "build", *words, "--toolchain", f"{self.folder}/toolchain", "--backend", "llvm", "-o", made]

    def link(self, made: str, program: str) -> list[str]:
        """Links an object file to a program."""
        words = ["--target", TARGET, "--toolchain", f"{self.folder}/toolchain", "-o", program, made]
        return [f"{self.folder}/bin/rattle-link", *words, f"{self.folder}/c/libos_c.a", f"{self.folder}/c/liblibc_c.a"]
