"""Runs the program, several commands side by side, and passes on what it refuses."""
import os
import subprocess
from collections import deque

from refused import FAILED, USAGE, Refused

BLOCK = 1 << 20  # bytes that are read at a time


class Usage(Refused):
    """The program takes these words for no command."""


class Run:
    """One run of the program. Its lines are read as it writes them."""

    def __init__(self, program: str, words: list) -> None:
        self.command = words[0]
        try:
            self.process = subprocess.Popen(
                [program, *words], stdin=subprocess.DEVNULL, stdout=subprocess.PIPE, stderr=subprocess.PIPE, bufsize=BLOCK)
        except OSError as error:
            raise Refused(FAILED, f"hosttrace: the program can't be started: {error.strerror}") from None

    def lines(self):
        """The lines, as bytes with their line feeds; then what the program refused is raised."""
        yield from self.process.stdout
        said = self.process.stderr.read().decode("utf-8", "backslashreplace").rstrip("\n")
        status = self.process.wait()
        if status == USAGE and said.splitlines()[-1:] == ["usage"]:
            raise Usage(status, said)
        if status < 0:
            raise Refused(FAILED, f"hosttrace: `hosttrace {self.command}` was ended by signal {-status}")
        if status:
            raise Refused(status, said or f"hosttrace: `hosttrace {self.command}` ended with status {status}")

    def stop(self) -> None:
        if self.process.poll() is None:
            self.process.kill()
        self.process.wait()
        self.process.stdout.close()
        self.process.stderr.close()


class Runs:
    """Runs of several commands, which are read one after the other; as many as there are processors are at work at a time. Those that
    aren't read wait in their pipes."""

    def __init__(self, program: str, commands) -> None:
        self.program, self.waiting, self.begun = program, deque(commands), deque()

    def __enter__(self):
        return self

    def __exit__(self, *_) -> None:
        for run in self.begun:
            run.stop()

    def next(self) -> Run:
        """The next command's run."""
        if self.begun:
            self.begun.popleft().stop()
        while self.waiting and len(self.begun) < len(os.sched_getaffinity(0)):
            self.begun.append(Run(self.program, self.waiting.popleft()))
        return self.begun[0]
