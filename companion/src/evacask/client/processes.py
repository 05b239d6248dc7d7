"""The processes that were started, so that none is left behind however this one ends."""
from __future__ import annotations

import contextlib
import errno
import os
import subprocess
import threading
from typing import Callable, Iterator, List, Sequence, Set

from evacask.errors import Broken, NoMemory, NoProgram

KILL = 9


class Processes:
    """All processes at work. A face that takes signals sets `after_start`, and closes the set when one came."""

    def __init__(self) -> None:
        self.running: "Set[subprocess.Popen[bytes]]" = set()
        self.is_closed = False
        self.starting: Set[int] = set()
        self.after_start: Callable[[], None] = lambda: None

    @property
    def is_starting(self) -> bool:
        """Whether this thread is just starting a process, which is in no list yet."""
        return threading.get_ident() in self.starting

    def start(self, command: Sequence[str]) -> "subprocess.Popen[bytes]":
        """Starts a process as the first of a group of its own, apart from the terminal."""
        self.starting.add(threading.get_ident())
        try:
            process = subprocess.Popen(list(command), stdin=subprocess.PIPE, stdout=subprocess.PIPE, start_new_session=True)
            self.running.add(process)
        except (OSError, ValueError) as fault:
            if getattr(fault, "errno", None) == errno.ENOMEM:
                raise NoMemory(f"there is too little memory to run {command[0]}") from None
            raise NoProgram(f"{command[0]} can't be run: {getattr(fault, 'strerror', None) or fault}") from None
        finally:
            self.starting.discard(threading.get_ident())
        if self.is_closed:
            self.end(process)
            self.after_start()
            raise Broken("the command is ending, so nothing more is asked")
        return process

    def end(self, process: "subprocess.Popen[bytes]") -> None:
        """Ends a process and what it started, as a script that wraps the program does, and waits for it."""
        end_group(process)
        process.wait()
        self.running.discard(process)
        for pipe in (process.stdin, process.stdout):
            with contextlib.suppress(OSError):
                if pipe is not None:
                    pipe.close()

    def close(self) -> None:
        """Ends every process, and each that is started from now on. What waits for a reply gets `Broken`."""
        self.is_closed = True
        for process in list(self.running):
            end_group(process)

    def reopen(self) -> None:
        """Lets processes be started again."""
        self.is_closed = False

    @contextlib.contextmanager
    def started(self, command: Sequence[str]) -> "Iterator[subprocess.Popen[bytes]]":
        """A process that is gone at the end, however that comes about."""
        process = self.start(command)
        try:
            yield process
        finally:
            self.end(process)


def end_group(process: "subprocess.Popen[bytes]") -> None:
    with contextlib.suppress(ProcessLookupError, PermissionError):
        os.killpg(process.pid, KILL)


PROCESSES = Processes()


def numbers(processes: Processes) -> List[int]:
    """The process numbers at work, for tests."""
    return [it.pid for it in processes.running]
