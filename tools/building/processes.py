"""Commands in a process group that ends when this process ends, however it ends."""
from __future__ import annotations

import os
import signal
import subprocess
from dataclasses import dataclass

from building import Failure

SIGNALS = (signal.SIGINT, signal.SIGTERM, signal.SIGHUP)


class Interrupted(BaseException):
    """A signal asked this process to end."""

    def __init__(self, number: int) -> None:
        super().__init__(number)
        self.number = number


def _interrupt(number: int, _frame) -> None:
    for each in SIGNALS:
        signal.signal(each, signal.SIG_IGN)
    raise Interrupted(number)


def raise_on_signals() -> None:
    """Has a signal that asks this process to end raise Interrupted, but one that the caller has it ignore, as nohup does."""
    for number in SIGNALS:
        if signal.getsignal(number) is not signal.SIG_IGN:
            signal.signal(number, _interrupt)


def end_by(number: int) -> None:
    """Ends this process as that signal does, so that the caller sees which it was."""
    signal.signal(number, signal.SIG_DFL)
    os.kill(os.getpid(), number)


@dataclass(frozen=True)
class Ended:
    """How a command ended: its status (below 0: by that signal), and what it took."""

    process: int
    status: int
    seconds: float
    megabytes: int


class Group:
    """A process group. Its first process waits for this one's end of a pipe to close, and then kills the group.

    What its commands put into files of their own for a time goes to the folder that is named here.
    """

    def __init__(self, folder: str) -> None:
        self._environment = {**os.environ, "TMPDIR": folder}
        waits_at, self._held = os.pipe()
        self._guard = subprocess.Popen(["sh", "-c", "trap '' INT TERM HUP; read -r _; kill -9 0"], stdin=waits_at,
                                       stdout=subprocess.DEVNULL, stderr=subprocess.DEVNULL, preexec_fn=os.setpgrp)
        os.close(waits_at)

    def start(self, words: list[str], folder: str, log: str) -> int:
        """Starts a command in that folder, whose lines go to the log. Answers its process."""
        with open(log, "w", encoding="utf-8") as told:
            started = subprocess.Popen(words, cwd=folder, stdin=subprocess.DEVNULL, stdout=told, stderr=told,
                                       env=self._environment, preexec_fn=lambda: os.setpgid(0, self._guard.pid))
        # It is waited for below, and not by Popen.
        started.returncode = 0
        return started.pid

    def ended(self, is_to_wait: bool) -> Ended | None:
        """The next command that has ended, if one has, or is waited for."""
        process, status, used = os.wait4(-1, 0 if is_to_wait else os.WNOHANG)
        if process == self._guard.pid:
            raise Failure("the process that watches over the build was killed")
        if process == 0:
            return None
        code = os.waitstatus_to_exitcode(status)
        return Ended(process, code, used.ru_utime + used.ru_stime, used.ru_maxrss // 1000)

    def run(self, words: list[str], folder: str, log: str) -> Ended:
        """Runs one command, with no other beside it."""
        self.start(words, folder, log)
        ended = self.ended(True)
        assert ended is not None
        return ended

    def kill(self) -> None:
        """Kills all that runs in the group, and waits until it is gone. Nothing can be started in it afterwards."""
        os.close(self._held)
        try:
            os.killpg(self._guard.pid, signal.SIGKILL)
            while True:
                os.wait4(-1, 0)
        except (ProcessLookupError, ChildProcessError):
            self._guard.returncode = 0
