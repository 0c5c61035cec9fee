"""The parts of tools/build_program and tools/build_unproved."""


class Failure(Exception):
    """Why nothing was built, in words for whoever asked for it, and the last lines of the command that failed."""

    def __init__(self, why: str, said: tuple = ()) -> None:
        super().__init__(why)
        self.said = said
