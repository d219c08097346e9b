#!/usr/bin/env python3
"""How long rounds of the lock take, or calls of a store, by kind of caller: a table in Markdown.

python3 tools/waits.py PROGRAM [--seconds 2] [--runs 3] [--processors 0,1]

PROGRAM is crates/benches/out/benches or crates/callers/out/callers, which `rt run` builds there. The head of each
program explains its words. A round of `benches` takes the lock, holds it for about a microsecond, as a change of the
store does, and puts it back. A call of `callers` moves an object, or finds the nearest 8. The program prints how many
nanoseconds each took. The table takes all runs of a kind together. The runs of the kinds are interleaved.
"""

import argparse
import subprocess
from pathlib import Path

# What is asked of the program: threads, microseconds from one round or call to the next of each, threads of a batch and others beside
# them.
KINDS = [
    ("4 threads, 5,000 {} a second each", 4, 200, 0, 0),
    ("16 threads, 5,000 {} a second each", 16, 200, 0, 0),
    ("one, 1,000 {} a second, beside a batch of 3", 1, 1000, 3, 0),
    ("one, 1,000 {} a second, beside one without a pause", 1, 1000, 0, 1),
]

# Of rounds alone.
UNPACED_KINDS = [
    ("4 threads without a pause", 4, 0, 0, 0),
    ("16 threads without a pause", 16, 0, 0, 0),
]

# How many rounds without a pause stand for a second, in all.
UNPACED = 200_000

# No trie; and how many short rests a round has.
TRIE = ['9', '0', '0', '0', '0', '0']
RESTS = 60

SHARES = [("median", 0.5), ("99 %", 0.99), ("99.9 %", 0.999), ("99.99 %", 0.9999)]


def words_of_rounds(kind, seconds):
    _, threads, pause, batch, busy = kind
    rounds = threads * seconds * 1_000_000 // pause if pause else seconds * UNPACED
    return TRIE + [str(it) for it in (threads, rounds, 0, RESTS, pause, batch, busy)] + ["times"]


def words_of_calls(kind, seconds):
    _, threads, pause, batch, busy = kind
    return [str(it) for it in (threads, 1_000_000 // pause, seconds * 1000, batch, busy)] + ["times"]


def run(program, processors, asked):
    pinned = ["taskset", "-c", processors] if processors else []
    ran = subprocess.run([*pinned, program, *asked], capture_output=True, text=True, check=True)
    return [int(line[3:]) for line in ran.stdout.splitlines() if line.startswith("ns ")]


def micros(nanos):
    return f"{nanos / 1000:,.1f}" if nanos < 100_000 else f"{nanos / 1000:,.0f}"


def main():
    parser = argparse.ArgumentParser(description=__doc__.split("\n")[0])
    parser.add_argument("program")
    parser.add_argument("--seconds", type=int, default=2)
    parser.add_argument("--runs", type=int, default=3)
    parser.add_argument("--processors")
    given = parser.parse_args()
    if Path(given.program).name == "callers":
        what, kinds, words = "calls", KINDS, words_of_calls
    else:
        what, kinds, words = "rounds", KINDS + UNPACED_KINDS, words_of_rounds
    times = {kind: [] for kind in kinds}
    for _ in range(given.runs):
        for kind in kinds:
            times[kind] += run(given.program, given.processors, words(kind, given.seconds))
    print(f"| Callers | {what.capitalize()} | " + " | ".join(name for name, _ in SHARES) + " | greatest |")
    print("|---|" + "--:|" * (len(SHARES) + 2))
    for kind in kinds:
        told = sorted(times[kind])
        parts = [micros(told[int(share * len(told))]) for _, share in SHARES] + [micros(told[-1])]
        print(f"| {kind[0].format(what)} | {len(told):,} | " + " | ".join(parts) + " |")


if __name__ == "__main__":
    main()
