"""Begins evacask: until its own handlers stand, Ctrl-C ends it without a word, as it ends any program."""
import os
from errno import ENOMEM

import _signal  # type: ignore[import]  # (signal itself imports enum, which takes a while)

TOO_LITTLE_MEMORY = 5  # the status

_signal.signal(_signal.SIGINT, _signal.SIG_DFL)


def main() -> int:
    """The status of the command that the words of this process name."""
    try:
        from evacask.faces.commands import main as run
    except (MemoryError, OSError, ImportError) as fault:
        if not is_of_memory(fault):
            raise
        os.write(2, b"evacask: there is too little memory\n")
        return TOO_LITTLE_MEMORY
    return run()


def is_of_memory(fault: BaseException) -> bool:
    """Whether a module couldn't be read for want of memory. A library that finds none is an ImportError."""
    return isinstance(fault, MemoryError) or getattr(fault, "errno", None) == ENOMEM or "failed to map segment" in str(fault)


if __name__ == "__main__":
    import sys

    sys.exit(main())
