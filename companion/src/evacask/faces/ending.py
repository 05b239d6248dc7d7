"""How a command ends: one line on standard error where something went wrong, a status, and no process left behind."""
from __future__ import annotations

import contextlib
import enum
import io
import os
import signal
import sys
import threading
import time
from types import FrameType
from typing import Any, Callable, Dict, NoReturn, Optional

from evacask.client.processes import PROCESSES
from evacask.errors import (
    Broken,
    EvacaskError,
    InputError,
    NoMemory,
    NoProgram,
    NotProved,
    OutputError,
    WordsError,
)
from evacask.faces.progress import LINE


class Status(enum.IntEnum):
    """The statuses of evacask. Those from 0 to 5 are those of evacplan, where both have them."""

    ANSWERED = 0
    REFUSED = 1
    WORDS = 2
    INPUT = 3
    OUTPUT = 4
    MEMORY = 5
    REVIEW = 10
    NO_PROGRAM = 70
    CLOSED_PIPE = 141


STATUSES = """statuses:
  0    answered
  1    the building, the plan or a line is refused, or not everybody gets out
  2    the arguments of the command are wrong
  3    a file or standard input can't be read
  4    the output can't be written
  5    there was too little memory
  10   there is something to review
  70   there is no program, or it failed or isn't proved, or Python is too old
  141  the reader of the output has gone away
A signal that ends evacask also ends the program that it asks. The status is then 130 after Ctrl-C, 143 after SIGTERM, 129 after SIGHUP."""

# The status of each kind of error that has one of its own; all others are 1.
STATUS_OF = (
    (WordsError, Status.WORDS),
    (InputError, Status.INPUT),
    (OutputError, Status.OUTPUT),
    (NoMemory, Status.MEMORY),
    (NoProgram, Status.NO_PROGRAM),
    (NotProved, Status.NO_PROGRAM),
    (Broken, Status.NO_PROGRAM),
)
ENDING = (
    signal.SIGINT,
    signal.SIGTERM,
    signal.SIGHUP,
    signal.SIGQUIT,
    signal.SIGXCPU,
    signal.SIGALRM,
    signal.SIGUSR1,
    signal.SIGUSR2,
    signal.SIGVTALRM,
    signal.SIGPROF,
)
# The seconds to wait, after a signal, for a thread that is just starting a program.
PATIENCE = 2.0


class Signalled(BaseException):
    """A signal that ends the command came."""

    def __init__(self, number: int):
        self.number = number


class Signals:
    """Has signals that end a process come as an exception, so that the programs that it asks end first. A second one ends at once."""

    def __init__(self) -> None:
        self.before: Dict[int, Any] = {}
        self.came: Optional[int] = None

    def take(self) -> None:
        """Takes each signal that isn't ignored. Only the main thread can."""
        PROCESSES.reopen()
        if threading.current_thread() is not threading.main_thread():
            return
        PROCESSES.after_start = self.raise_late
        sys.unraisablehook = unraisable
        for number in ENDING:
            if signal.getsignal(number) != signal.SIG_IGN:
                self.before[number] = signal.signal(number, self.come)

    def give_back(self) -> None:
        """Leaves this process as it was, in which the package may be asked on."""
        PROCESSES.reopen()
        PROCESSES.after_start = lambda: None
        sys.unraisablehook = sys.__unraisablehook__
        for number, handler in self.before.items():
            signal.signal(number, handler)
        self.before.clear()

    def come(self, number: int, frame: Optional[FrameType]) -> None:
        """Notes a signal, ends all programs, and breaks the work off, unless a program is just starting: then that does it."""
        self.came = number
        for it in self.before:
            signal.signal(it, signal.SIG_DFL)
        PROCESSES.close()
        if not PROCESSES.is_starting:
            raise Signalled(number)

    def raise_late(self) -> None:
        """Breaks the work off after a start during which a signal came."""
        if self.came is not None and threading.current_thread() is threading.main_thread():
            raise Signalled(self.came)

    def die(self) -> NoReturn:
        """Ends this process by the signal that came, when no program is left."""
        number = self.came or signal.SIGTERM
        end = time.monotonic() + PATIENCE
        while PROCESSES.starting and time.monotonic() < end:
            time.sleep(0.01)
        PROCESSES.close()
        signal.signal(number, signal.SIG_DFL)
        os.kill(os.getpid(), number)
        os._exit(128 + number)  # (where the signal is blocked)


def unraisable(fault: "sys.UnraisableHookArgs") -> None:
    """Says nothing of a signal that came while Python cleaned up: it was noted, and ends the command."""
    if fault.exc_type is not Signalled:
        sys.__unraisablehook__(fault)


def ends(run: Callable[[], int]) -> int:
    """Runs a command, and answers with its status; or ends this process by the signal that came."""
    signals = Signals()
    try:
        signals.take()
        fill_closed_streams()
        status = ended(run)
    except Signalled:
        signals.die()
    finally:
        PROCESSES.close()
        if signals.came is not None:
            signals.die()
        signals.give_back()
        PROCESSES.reopen()  # (whoever called a command in this process may go on asking)
    return status


def ended(run: Callable[[], int]) -> int:
    """The status of a command, after one line on standard error where something went wrong."""
    try:
        if sys.stdout is None:
            return told(Status.OUTPUT, "the output can't be written: it is closed")
        status = run()
        sys.stdout.flush()
        return status
    except EvacaskError as fault:
        return told(next((status for kind, status in STATUS_OF if isinstance(fault, kind)), Status.REFUSED), str(fault))
    except BrokenPipeError:
        let_go()
        return Status.CLOSED_PIPE
    except MemoryError:
        return told(Status.MEMORY, "there is too little memory")
    except OSError as fault:
        return told(Status.OUTPUT, f"the output can't be written: {fault.strerror or fault}")


def fill_closed_streams() -> None:
    """Has each of the three streams be something, so that no file that is opened later takes the place of a closed one."""
    for number in (0, 1, 2):
        try:
            os.fstat(number)
        except OSError:
            with contextlib.suppress(OSError):
                os.open(os.devnull, os.O_RDWR)
    for stream in (sys.stdin, sys.stdout, sys.stderr):
        if isinstance(stream, io.TextIOWrapper):
            stream.reconfigure(encoding="utf-8", errors="surrogateescape")


def told(status: Status, line: str) -> int:
    """Says a line on standard error, if somebody can hear it, and lets go of what can't be written."""
    let_go()
    say(f"evacask: {' '.join(line.split())}\n")
    return status


def say(text: str) -> None:
    """Writes a text to standard error, if somebody can hear it."""
    try:
        LINE.erase()
        if sys.stderr is not None:
            sys.stderr.write(text)
            sys.stderr.flush()
    except OSError:
        let_go()


def let_go() -> None:
    """Writes what is left, or lets it go if it can't be written, so that the end of Python says nothing of it."""
    for stream, number in ((sys.stdout, 1), (sys.stderr, 2)):
        try:
            if stream is not None:
                stream.flush()
        except OSError:
            null = os.open(os.devnull, os.O_WRONLY)
            os.dup2(null, number)
            os.close(null)
