"""Compares a program with the model: whole output and exit status, over random scripts and streams.

`python3 model/compare.py --sib PATH --seeds 1 300 [--jobs 2] [--kinds replay,show,check,make,trial] [--keep DIR]`
"""
import argparse
import multiprocessing
import os
import random
import subprocess
import sys
import time

import broker
import generate

SHARES = {"replay": 16, "show": 2, "check": 2, "make": 0.1, "trial": 0.1, "words": 0.3}
WORDS = ["replay", "show", "check", "make", "trial", "X", "", "0", "1", "01", "+1", "2", "10001", "sp \u00f6<", "\x7f", "\ufffe", "s" * 1_024,
         "s" * 1_025, "\u00f6" * 512, "\u00f6" * 513, "-1", "help", "--help", "1 ", "\u0661"]


def case(seed, kinds):
    """What one seed runs: the words, and the input."""
    chooser = random.Random("%d kind" % seed)
    kind = chooser.choices(kinds, [SHARES[kind] for kind in kinds])[0]
    if kind == "replay":
        space, data = generate.script(seed)
        return [b"replay", space], data
    if kind in ("show", "check"):
        return [kind.encode()], generate.stream(seed)
    if kind == "words":
        words = [chooser.choice(WORDS).encode() for _ in range(chooser.choice([0, 1, 2, 2, 2, 3]))]
        return words + chooser.choice([[], [], [], [b"\xff"]]), b"+\n"
    return [kind.encode(), b"%d" % chooser.choice([1, 2, 3, 7, 21, 41, 60])], b""


def difference(expected, found):
    """Where two answers (output and status) first differ, in words."""
    (one, status), (two, other) = expected, found
    if one == two:
        return "the output is the same, the status is %s and not %s" % (other, status)
    place = next((i for i, pair in enumerate(zip(one, two)) if pair[0] != pair[1]), min(len(one), len(two)))
    around = slice(max(0, place - 200), place + 200)
    return "outputs differ from byte %d on (status %s and %s)\n  model:   %r\n  program: %r" % (
        place, status, other, one[around], two[around])


def program(sib, words, data, limit=120):
    """The output and the status of the program."""
    try:
        done = subprocess.run([os.fsencode(sib)] + words, input=data, stdout=subprocess.PIPE, stderr=subprocess.DEVNULL, timeout=limit)
        return done.stdout, done.returncode
    except subprocess.TimeoutExpired as late:
        return late.stdout or b"", "none after %d s" % limit


def compare(task):
    """Runs one seed in both; a line and what to keep where they differ, else None."""
    seed, sib, kinds = task
    words, data = case(seed, kinds)
    try:
        expected = broker.run(words, lambda: data)
    except Exception as error:  # a fault of the model is a difference too, and must not pass in silence
        return seed, words, data, "the model fails: %r" % error
    found = program(sib, words, data)
    return None if expected == found else (seed, words, data, difference(expected, found))


def keep(folder, seed, words, data):
    """Keeps the input and the words of a difference; the name of the file."""
    os.makedirs(folder, exist_ok=True)
    path = os.path.join(folder, "%d.input" % seed)
    with open(path, "wb") as file:
        file.write(data)
    with open(os.path.join(folder, "%d.words" % seed), "wb") as file:
        file.write(b"\0".join(words))
    return path


def main():
    """Compares, and prints the differences or that there is none."""
    parser = argparse.ArgumentParser()
    parser.add_argument("--sib", required=True)
    parser.add_argument("--seeds", nargs=2, type=int, default=[1, 300])
    parser.add_argument("--jobs", type=int, default=2)
    parser.add_argument("--kinds", default="replay,show,check")
    parser.add_argument("--keep", default=os.path.join(os.path.dirname(os.path.abspath(__file__)), "differences"))
    asked = parser.parse_args()
    if not os.access(asked.sib, os.X_OK):
        sys.exit("no program at " + asked.sib)
    first, last = asked.seeds
    tasks = [(seed, asked.sib, asked.kinds.split(",")) for seed in range(first, last + 1)]
    begin, differences = time.time(), 0
    with multiprocessing.Pool(asked.jobs) as pool:
        for result in pool.imap_unordered(compare, tasks):
            if result:
                differences += 1
                seed, words, data, text = result
                print("seed %d (%s): %s\n  kept in %s" % (seed, words[:1], text, keep(asked.keep, seed, words, data)), flush=True)
    said = "no difference" if not differences else "%d differences" % differences
    print("compared %d scripts: %s" % (len(tasks), said))
    print("%.1f seconds" % (time.time() - begin), file=sys.stderr)
    return 1 if differences or not tasks else 0


if __name__ == "__main__":
    sys.exit(main())
