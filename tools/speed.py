#!/usr/bin/env python3
"""Counts instructions of `speed` and of the twin's `speed`, side by side, under valgrind's callgrind.

    tools/speed.py [OURS THEIRS]

Without arguments it takes crates/speed/out/speed and target/twin/release/speed. It prints the tables of docs/SPEED.md, and
ends with status 1 where two checksums differ.
"""
import re
import subprocess
import sys
import tempfile

STEPS = ["offer", "tick, nothing held", "send and lose", "arrive", "deliver", "acknowledge and lose", "hear", "resend and lose"]
HELD = [1, 16, 64, 256, 1024, 4096]


def count(program, words):
    """The instructions of a run, and what it printed."""
    with tempfile.NamedTemporaryFile() as out:
        run = subprocess.run(["valgrind", "--tool=callgrind", "--callgrind-out-file=" + out.name, program] + words,
                             capture_output=True, text=True, check=True)
    return int(re.search(r"Collected : (\d+)", run.stderr).group(1)), run.stdout


def both(programs, words):
    (ours, a), (theirs, b) = (count(program, words) for program in programs)
    if a != b:
        sys.exit("speed %s: %s and %s" % (" ".join(words), a.strip(), b.strip()))
    return ours, theirs


def row(name, ours, theirs, by=1):
    form = "{:,.0f}" if by == 1 else "{:,.1f}"
    print("| %s | %s | %s | %.2f |" % (name, form.format(ours / by), form.format(theirs / by), ours / theirs), flush=True)


def head(name, what):
    print("\n| %s | %s | twin | ratio |\n|---|---|---|---|" % (name, what))


def main():
    programs = sys.argv[1:] or ["crates/speed/out/speed", "target/twin/release/speed"]
    head("a million blocks", "instructions")
    for way in ("shelves", "log"):
        row("`%s`" % way, *both(programs, [way]))
    for way in ("shelves", "log"):
        head("one call, `%s`" % way, "instructions")
        last = both(programs, ["calls", way, "0"])
        for step, name in enumerate(STEPS, 1):
            now = both(programs, ["calls", way, str(step)])
            row(name, now[0] - last[0], now[1] - last[1], 102400)
            last = now
    for way in ("shelf", "log", "two_way"):
        head("one tick of a `%s` that holds" % way, "instructions")
        none = both(programs, ["ticks", way, "0"])
        for held in HELD:
            now = both(programs, ["ticks", way, str(held)])
            row("%d" % held, now[0] - none[0], now[1] - none[1], 1000)


main()
