#!/usr/bin/env python3
"""Asks evacplan what it costs to shut each exit: python3 examples/exit_cost.py PROGRAM BUILDING"""
import subprocess
import sys


def read_reply(program):
    """The lines of one reply, each as a list of its words."""
    lines = []
    while line := program.stdout.readline():
        words = line.decode("utf-8", "replace").split()
        lines.append(words)
        is_one_line = words[0] == "work" or words[0] == "refused" and words[1] != "22"
        if words == ["end"] or len(lines) == 1 and is_one_line:
            return lines
    sys.exit(f"evacplan ended with status {program.wait()}")


def ask(program, line):
    """Sends a line and returns its reply. (An accepted `advance` has a second part: read once more.)"""
    program.stdin.write(line + b"\n")
    program.stdin.flush()
    return read_reply(program)


def number(reply, word):
    return next(int(words[1]) for words in reply if words[0] == word)


def main(path, building):
    with open(building, "rb") as file:
        text = file.read()
    program = subprocess.Popen([path, "session"], stdin=subprocess.PIPE, stdout=subprocess.PIPE)
    opening = ask(program, text)
    if opening[0][0] == "refused":
        sys.exit(" ".join(opening[0]))
    print("all exits open: cleared", number(opening, "cleared"))
    for words in map(bytes.split, text.splitlines()):
        if words[:1] == [b"node"] and words[1].startswith(b"DS"):
            name, reply = words[1].decode(), ask(program, b"shutexit " + words[1])
            if reply[0][0] == "answer":
                print(f"{name} shut: cleared", number(reply, "cleared"))
                ask(program, b"undo")
            else:
                print(f"{name} shut: at most {number(reply, 'most')} of {number(reply, 'people')} get out")
    program.stdin.close()
    return program.wait()


if __name__ == "__main__":
    sys.exit(main(*sys.argv[1:]))
