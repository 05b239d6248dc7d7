"""A conversation at a terminal or over a pipe: a prompt, history and completion of names, and a line for each reply."""
from __future__ import annotations

import contextlib
import io
import signal
import sys
import threading
from typing import Iterator, List, Optional

from evacask.errors import InputError, WordsError
from evacask.faces.briefly import Briefly
from evacask.faces.ending import Status
from evacask.faces.progress import LINE
from evacask.model.building import Model
from evacask.model.forms import COMMANDS, LINE_LIMIT, OF_ARCS
from evacask.model.lines import bytes_of, fields_of, printable
from evacask.questions.conversation import Conversation

OWN_WORDS = {"whole": "prints the last reply whole", "help": "prints these lines", "quit": "ends, as Ctrl-D does"}


def candidates(model: Model, mode: str, before: List[str]) -> List[str]:
    """The words that may follow those before on a line."""
    if not before:
        return [*COMMANDS[mode], *OWN_WORDS]
    wanted = COMMANDS[mode].get(before[0], "").split()
    place = wanted[len(before) - 1] if len(before) <= len(wanted) else ""
    if place == "D":
        return [node.name for node in model.exits]
    if place == "B" and before[0] in OF_ARCS:
        return [head for tail, head in model.arcs if tail == before[1]]
    if place == "A" and before[0] in OF_ARCS:
        return list(dict.fromkeys(tail for tail, _ in model.arcs))
    return [node.name for node in model.rooms] if place in ("A", "B") else []


def help_lines(mode: str) -> List[str]:
    forms = ", ".join(f"{word} {more}".strip() for word, more in COMMANDS[mode].items())
    return [f"{forms}: docs/users/formats.md says what each does", *(f"{word} {what}" for word, what in OWN_WORDS.items())]


def complete_names(model: Model, mode: str) -> None:
    """Lets the Tab key complete commands and names, if Python has readline."""
    try:
        import readline
    except ImportError:
        return

    def complete(start: str, number: int) -> Optional[str]:
        before = fields_of(readline.get_line_buffer()[: readline.get_begidx()])
        found = [word + " " for word in candidates(model, mode, before) if word.startswith(start)]
        return found[number] if number < len(found) else None

    readline.set_completer_delims(" \t")
    readline.set_completer(complete)
    readline.parse_and_bind("tab: complete")


def is_terminal() -> bool:
    return sys.stdin is not None and sys.stdin.isatty()


def typed(prompt: str) -> Iterator[str]:
    """The lines that somebody types at a prompt, or that come from elsewhere. `InputError` if they can't be read."""
    try:
        while True:
            line = prompted(prompt) if is_terminal() else sys.stdin.readline()
            if line is None or not line:
                return
            yield line[:-1] if line.endswith("\n") else line
    except (OSError, io.UnsupportedOperation, AttributeError) as fault:
        raise InputError(f"standard input can't be read: {getattr(fault, 'strerror', None) or 'it is closed'}") from None


def prompted(prompt: str) -> Optional[str]:
    """A line that is typed, with its end; None at the end of the input. Ctrl-C drops a line, and the conversation goes on."""
    while True:
        try:
            with interruptible():
                return input(prompt) + "\n"
        except EOFError:
            sys.stdout.write("\n")
            return None
        except KeyboardInterrupt:
            sys.stdout.write("\n")


@contextlib.contextmanager
def interruptible() -> Iterator[None]:
    """Has Ctrl-C come as KeyboardInterrupt, and not end the command."""
    if threading.current_thread() is not threading.main_thread():
        yield
        return
    before = signal.signal(signal.SIGINT, signal.default_int_handler)
    try:
        yield
    finally:
        signal.signal(signal.SIGINT, before)


def converse(talk: Conversation, model: Model) -> int:
    """Answers each typed line, until `quit` or the end of the input."""
    brief, last = Briefly(model), talk.opening.raw.decode("utf-8", "surrogateescape") if talk.mode != "study" else ""
    if is_terminal():
        complete_names(model, talk.mode)
    show([brief.plan(talk.opening)])
    for line in typed(f"{talk.mode}> "):
        # (one CR at its end is no part of a line)
        line = line[:-1] if line.endswith("\r") else line
        words = fields_of(line)
        if not words or words[0].startswith("#"):
            continue
        if words == ["quit"]:
            break
        if words == ["whole"]:
            sys.stdout.write(last)
        elif words == ["help"]:
            show(help_lines(talk.mode))
        elif len(bytes_of(line)) > LINE_LIMIT:
            show([f"a line may have {LINE_LIMIT} bytes: this one was left out"])
        else:
            last = answered(talk, line, brief, last)
        sys.stdout.flush()
    return Status.ANSWERED


def answered(talk: Conversation, line: str, brief: Briefly, last: str) -> str:
    """Prints the reply to a line, and gives its text; the one before if the line isn't sent."""
    try:
        reply = talk.say(line)
    except WordsError as fault:
        show([str(fault)])
        return last
    show(brief.lines(reply.said))
    return reply.text


def show(lines: List[str]) -> None:
    LINE.erase()
    for line in lines:
        sys.stdout.write(printable(line) + "\n")
    sys.stdout.flush()
