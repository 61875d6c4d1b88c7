"""The model as a command: `replay SPACE`, `show`, `check`, `make N`, `trial N`, with the output and statuses of the page."""
import os
import sys

import replay
from messages import GRAMMAR, NONE


def is_text(data):
    """Whether bytes are well-formed UTF-8 of allowed characters."""
    state = GRAMMAR.star(GRAMMAR.char())
    for byte in data:
        state = GRAMMAR.step(state, byte)
    return state != NONE and GRAMMAR.empty(state)


def count(word):
    """N of `make` and `trial`: 1 to 10,000 without a leading zero; None for another word."""
    right = word.isdigit() and not word.startswith(b"0") and len(word) <= 5 and int(word) <= 10_000
    return int(word) if right else None


def run(words, read):
    """The output and the exit status of a command; read() is standard input to its end."""
    try:
        for word in words:
            word.decode()
    except UnicodeDecodeError:
        return b"", 2
    if len(words) == 2 and words[0] == b"replay" and 1 <= len(words[1]) <= replay.NAME_LIMIT and is_text(words[1]):
        return replay.replay(words[1], read())
    if words == [b"show"]:
        return replay.show(read())
    if words == [b"check"]:
        return replay.check(read())
    if len(words) == 2 and words[0] in (b"make", b"trial") and count(words[1]):
        return (replay.make if words[0] == b"make" else replay.trial)(count(words[1])), 0
    return b"", 2


def main():
    """Runs the words of the command line."""
    output, status = run([os.fsencode(word) for word in sys.argv[1:]], lambda: sys.stdin.buffer.read())
    sys.stdout.buffer.write(output)
    sys.stdout.buffer.flush()
    return status


if __name__ == "__main__":
    sys.exit(main())
