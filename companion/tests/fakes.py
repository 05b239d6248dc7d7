"""Programs that aren't evacplan, as shell scripts. `$REAL` is the real one, and the words that each is given are `$@`."""

# Answers rightly, with the lines of all that it prints changed.
FILTERED = {
    "no line end": "grep --line-buffered -v '^end$'",
    "all but the last byte": "head -c -1",
    "letters are capitals": "tr a-z A-Z",
    "lines end with CR": "sed -u 's/$/\\r/'",
}
# Accepts the building rightly, and changes what it prints afterwards.
AFTERWARDS = {
    "first ten bytes": "head -c 10",
    "first thousand bytes": "head -c 1000",
    "first two lines": "head -n 2",
    "first five lines": "head -n 5",
    "lines twice": "sed -u p",
    "numbers are 9": "sed -u 's/[0-9][0-9]*/9/g'",
    "numbers of moves are 9": "sed -u '/^move/s/[0-9][0-9]*/9/g'",
    "people of moves are 9": "sed -u 's/^\\(move .*\\) [0-9]*$/\\1 9/'",
    "people of routes are 9": "sed -u 's/^route [0-9]*/route 9/'",
    "names are others": "sed -u 's/WP1/WP7/g'",
    "numbers are negative": "sed -u 's/ \\([0-9]\\)/ -\\1/g'",
    "numbers are huge": "sed -u 's/ \\([0-9]\\)/ 99999999999999999999\\1/g'",
    "numbers are words": "sed -u 's/[0-9][0-9]*/x/g'",
    "other digits": "sed -u 's/1/١/g'",
    "fields are missing": "sed -u 's/ [^ ]*$//'",
    "fields too many": "sed -u '/^end$/!s/$/ 1/'",
    "two blanks": "sed -u 's/ /  /g'",
    "blanks are tabs": "sed -u 's/ /\\t/g'",
    "no first line": "sed -u 1d",
    "no cuts": "sed -u '/^arc/d; /^hold/d; /^entry/d; /^in /d'",
    "no moves and labels": "sed -u '/^move/d; /^label/d'",
    "no arrivals": "sed -u '/^out/d'",
    "one more": "sed -u 's/^people /people 1/; s/^cleared /cleared 1/'",
}
# Says something of its own.
OTHERS = {
    "silent": "exit 0",
    "silent with status 1": "exit 1",
    "status 3": "exit 3",
    "no memory": "exit 5",
    "killed": "kill -9 $$",
    "killed by signal 40": "kill -40 $$",
    "a greeting": "echo hello",
    "what it was given": "cat",
    "lines without end": "exec yes",
    "zeros without end": "exec cat /dev/zero",
    "random bytes": "exec head -c 100000 /dev/urandom",
    "refuses all": "echo refused 13 1",
    "refuses by an unknown code": "echo refused 999 1",
    "refuses by a word": "echo refused x y",
    "refuses at no line": "echo refused 13 99999999999",
    "short without a block": "echo refused 22 1",
    "closes its output": "exec >&-; exec sleep 20",
    "leaves a child that holds its output": "sleep 20 & exit 0",
    "a block of no numbers": "printf 'answer x\\npeople y\\ncleared z\\nend\\n'",
    "an empty block": "printf 'end\\n'",
    "ends after the building": '[ "$1" != upgrade ] || exec "$REAL" upgrade; exit 0',
    "memory is gone after the building": '[ "$1" != upgrade ] || exec "$REAL" upgrade; exit 5',
    "killed after the building": '[ "$1" != upgrade ] || exec "$REAL" upgrade; kill -11 $$',
    "yes to everything": "echo yes",
    "no to everything": "echo no 99",
}


ALL = (*FILTERED, *AFTERWARDS, *OTHERS)


def script(real: str, name: str) -> str:
    """The text of a fake program."""
    accepts = '[ "$1" != upgrade ] || exec "$REAL" upgrade\n' if name in AFTERWARDS else ""
    filtered = f'exec 3<&0; "$REAL" "$@" <&3 | {AFTERWARDS.get(name) or FILTERED.get(name)} & exec >&-; wait'
    return f"#!/bin/sh\nREAL={real}\n{accepts}{OTHERS.get(name) or filtered}\n"
