"""The program over pipes: run once, or talked to line by line."""
from __future__ import annotations

import contextlib
import os
import pathlib
import select
import subprocess
from dataclasses import dataclass
from typing import Callable, ContextManager, Iterator, Optional, Protocol, Sequence, Union

from evacask.client.blocks import NOT_UNDERSTOOD
from evacask.client.processes import PROCESSES
from evacask.errors import Broken, EvacaskError, NoMemory

END, CHUNK = b"\nend\n", 1 << 18
# More than any answer that was ever seen: another program may print without end.
MOST_BYTES = 1 << 29
# The first words of all that the program prints.
FIRST_WORDS = tuple(
    it.encode() + end
    for end, words in (
        (b" ", "answer refused work cut routes clearing bottlenecks summary exits least advance cards evacplan drill no"),
        (b"\n", "yes"),
    )
    for it in words.split()
)
LONGEST_WORD = max(len(it) for it in FIRST_WORDS)
# Milliseconds between two looks at a program that says nothing, and the seconds in which one ends that has closed its output.
PATIENCE, LAST_PATIENCE = 1000, 10.0
Tell = Callable[[int], None]


@dataclass(frozen=True)
class Source:
    """Where answers come from: the sum of the program, and the logic in which it is proved; None if it isn't."""

    sha256: str
    logic: Optional[str]

    @property
    def is_proved(self) -> bool:
        return self.logic is not None


class Line(Protocol):
    """A talk: lines out, replies in."""

    def send(self, lines: bytes) -> None:
        """Sends lines, each with its end. They may be sent ahead: nothing waits for a reply."""

    def reply(self) -> bytes:
        """The next reply, waited for."""


class Client(Protocol):
    """Whatever answers as evacplan does. A test gives one that reads its answers from a table."""

    @property
    def source(self) -> Source:
        """What answers."""

    def run(self, words: Sequence[str], text: bytes) -> bytes:
        """All that a run on a text prints."""

    def talk(self, mode: str, text: bytes) -> ContextManager[Line]:
        """A session, a study or a replan on a building's text."""


def silent(seconds: int) -> None:
    """Says nothing of a wait."""


class Program:
    """The program at a path. Threads may share one. `waiting` is called each second of a wait for a reply, with the seconds so far."""

    def __init__(self, path: Union[str, "os.PathLike[str]"], waiting: Tell = silent):
        self.path, self.waiting = pathlib.Path(path), waiting

    @property
    def source(self) -> Source:
        from evacask.client.program import source_of

        return source_of(self.path)

    def run(self, words: Sequence[str], text: bytes) -> bytes:
        """All that the program prints; `NoMemory` or `Broken` where it doesn't end with an answer."""
        with PROCESSES.started([str(self.path), *words]) as process:
            pipe = Pipe(process, self.waiting)
            pipe.send(text)
            printed = pipe.all()
            status = pipe.status()
        if status not in (0, 1):
            raise broken(status, "")
        return printed

    @contextlib.contextmanager
    def talk(self, mode: str, text: bytes) -> Iterator[Line]:
        """A talk. However the `with` ends, the program has ended then."""
        with PROCESSES.started([str(self.path), mode]) as process:
            pipe = Pipe(process, self.waiting)
            pipe.send(text)
            yield pipe


def broken(status: int, where: str) -> EvacaskError:
    """Why a program that ended gave no answer."""
    if status == 5:
        return NoMemory("the program found no memory")
    if status < 0:
        return Broken(f"the program was ended by signal {-status}{where}")
    return Broken(f"the program broke off with status {status}{where}: {NOT_UNDERSTOOD}")


class Pipe:
    """The pipes of a process. What is sent waits until the process reads it, and is written while replies are read, so neither side blocks the other."""

    def __init__(self, process: "subprocess.Popen[bytes]", waiting: Tell = silent):
        if process.stdin is None or process.stdout is None:
            raise Broken("the program has no streams")
        self.process, self.waiting = process, waiting
        self.stdin, self.stdout = process.stdin, process.stdout
        self.to_send, self.received = bytearray(), bytearray()
        self.is_last, self.seconds = False, 0
        self.to_read, self.to_read_or_write = select.poll(), select.poll()
        for poll in (self.to_read, self.to_read_or_write):
            poll.register(self.stdout.fileno(), select.POLLIN)
        self.to_read_or_write.register(self.stdin.fileno(), select.POLLOUT)
        os.set_blocking(self.stdin.fileno(), False)

    def send(self, lines: bytes) -> None:
        """Sends lines, or keeps what the process doesn't take yet."""
        self.to_send += lines
        self.write()

    def write(self) -> None:
        """Writes what the process takes now. One that has ended takes nothing, and what it printed says why."""
        try:
            while self.to_send:
                del self.to_send[: os.write(self.stdin.fileno(), self.to_send[:CHUNK])]
        except BlockingIOError:
            return
        except OSError:
            self.to_send.clear()
        if self.is_last:
            with contextlib.suppress(OSError):
                self.stdin.close()

    def wait(self) -> bool:
        """Waits a second at most until there is something to read, and writes meanwhile; whether there is."""
        poll = self.to_read_or_write if self.to_send else self.to_read
        ready = [number for number, _ in poll.poll(PATIENCE)]
        if not ready:
            self.seconds += 1
            self.waiting(self.seconds)
        if self.to_send and self.stdin.fileno() in ready:
            self.write()
        return self.stdout.fileno() in ready

    def read(self) -> bytes:
        """The next bytes that the process prints, waited for; none at its end, also if something that it started holds its output."""
        self.seconds = 0
        while not self.wait():
            if self.seconds and self.process.poll() is not None:
                return b""
        return os.read(self.stdout.fileno(), CHUNK)

    def more(self) -> bool:
        """Reads on; whether there was more. What doesn't begin as an answer, or has no end, comes from another program."""
        some = self.read()
        self.received += some
        if not begins_as_answer(self.received):
            raise Broken(f"the program printed {bytes(self.received[:40])!r}: {NOT_UNDERSTOOD}")
        if len(self.received) > MOST_BYTES:
            raise Broken("the program prints without end")
        return bool(some)

    def all(self) -> bytes:
        """All that the process prints after all was sent to it."""
        self.is_last = True
        self.write()
        while self.more():
            pass
        return bytes(self.received)

    def reply(self) -> bytes:
        """The next reply, waited for."""
        looked = 0
        while not (length := reply_length(self.received, max(0, looked - len(END)))):
            looked = len(self.received)
            if not self.more():
                raise broken(self.status(), " in the middle of a talk")
        with memoryview(self.received) as received:
            reply = bytes(received[:length])
        del self.received[:length]
        return reply

    def status(self) -> int:
        """The status of a process that has closed its output."""
        try:
            return self.process.wait(LAST_PATIENCE)
        except subprocess.TimeoutExpired:
            raise Broken(f"the program closed its output and went on: {NOT_UNDERSTOOD}") from None


def begins_as_answer(text: bytearray) -> bool:
    """Whether a text begins as an answer, or may once there is more of it."""
    return text.startswith(FIRST_WORDS) or len(text) < LONGEST_WORD and any(it.startswith(bytes(text)) for it in FIRST_WORDS)


def reply_length(text: bytearray, start: int) -> int:
    """The bytes of the first reply of a text, whose end is looked for from some byte on; 0 if it isn't whole."""
    if text.startswith((b"work ", b"refused ")) and not text.startswith(b"refused 22 "):
        return text.find(b"\n") + 1
    found = text.find(END, start)
    return found + len(END) if found >= 0 else 0
