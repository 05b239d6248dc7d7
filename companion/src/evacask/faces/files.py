"""Files that commands read, as bytes, and files that they write: whole or not at all."""
from __future__ import annotations

import contextlib
import os
import stat
import tempfile

from evacask.errors import OutputError
from evacask.faces.asked import read
from evacask.model.lines import bytes_of


def read_bytes(name: str) -> bytes:
    """The bytes of a file, or of standard input if its name is `-`."""
    return bytes_of(read(name))


def write_file(name: str, data: bytes) -> None:
    """Has a file be these bytes; `OutputError` if it can't be, and then it is as it was. What is no plain file, as a pipe, is written as it is."""
    try:
        if os.path.exists(name) and not stat.S_ISREG(os.stat(name).st_mode):
            with open(name, "wb") as stream:
                stream.write(data)
        else:
            replace(os.path.realpath(name), data)
    except (OSError, ValueError) as fault:
        raise OutputError(f"{name} can't be written: {getattr(fault, 'strerror', None) or fault}") from None


def replace(path: str, data: bytes) -> None:
    """Puts a file with these bytes in the place of another, whose permissions it has."""
    if os.path.exists(path):
        mode = stat.S_IMODE(os.stat(path).st_mode)
        with open(path, "r+b"):
            pass  # (so that what may not be written isn't replaced)
    else:
        mask = os.umask(0)
        os.umask(mask)
        mode = 0o666 & ~mask
    handle, made = tempfile.mkstemp(dir=os.path.dirname(path), prefix=".evacask-")
    try:
        with os.fdopen(handle, "wb") as file:
            file.write(data)
        os.chmod(made, mode)
        os.replace(made, path)
    except BaseException:
        with contextlib.suppress(OSError):
            os.unlink(made)
        raise
