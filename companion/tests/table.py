"""A client that answers from a table, so that questions can be tested without a program."""
import contextlib
from typing import Dict, Iterator, List, Sequence

from evacask.client.talk import Source

ROOM = "evacplan 1\nperiod 5\nhorizon 20\nfloor 1 G\n#: =Hall\nnode WP1.1 10 3\nnode DS1.1\narc WP1.1 DS1.1 1 2\nend\n"
BLOCK = "answer 0\npeople 3\ncleared 2\nout 0 0\nout 1 2\nout 2 3\nlabel WP1.1 0 2\nmove 0 WP1.1 DS1.1 2\nmove 1 WP1.1 DS1.1 1\nend\n"


class Table:
    """A client with a reply for each line of a talk, and for each word of a run. `sent` has the lines that wait for their replies."""

    source = Source("0" * 64, None)

    def __init__(self, replies: Dict[str, str]):
        self.replies = {"upgrade": "evacplan 2\nend\n", "solve": BLOCK, "session": BLOCK, "replan": BLOCK, **replies}
        self.sent: List[str] = []

    def run(self, words: Sequence[str], text: bytes) -> bytes:
        return self.replies[words[0]].encode()

    @contextlib.contextmanager
    def talk(self, mode: str, text: bytes) -> "Iterator[Table]":
        self.sent = [] if mode == "study" else [mode]
        yield self

    def send(self, lines: bytes) -> None:
        self.sent += lines.decode().splitlines()

    def reply(self) -> bytes:
        return self.replies[self.sent.pop(0)].encode()
