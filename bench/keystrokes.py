#!/usr/bin/env python3
"""Times typing in a text with spans and a watcher.

usage: bench/keystrokes.py [COUNT [CROWDED]]   COUNT: how many lines are typed (default 20000)
                                               CROWDED: how many under the most spans with a watcher over all of them
                                               (default: as many of COUNT as take a minute)

Runs the built program on a trace that only sets up text and spans, and on the same trace with COUNT edits behind it,
and prints the edits a second that the difference gives: under 0, 100 and 4,096 spans, each without a watcher, with one
whose seat lies where nothing is typed, and with one over the whole text, which is told of every edit and of every span
that moves. A seat is one more span, but of 4,096 it is one, as no more can be attached. The text has 5,000 units at
first, and some 21,000 behind 20,000 edits. Most of these insert a unit at a cursor; now and then one takes the unit
before the cursor back, or replaces a few units elsewhere, where the typing then goes on.
"""
import json
import pathlib
import random
import subprocess
import sys
import tempfile
import time

PROGRAM = pathlib.Path(__file__).resolve().parent.parent / "crates/replay_cli/out/replay_cli"
SEED, COUNT, UNITS, MOST_SPANS, MOST_SECONDS, PROBE, RUNS = 20_000, 20_000, 5_000, 4_096, 60, 100, 3
SPANS = (0, 100, MOST_SPANS)
SETTINGS = 'watcher = [{ kind = "note", numbers = [] }]\n'
# What is loaded, and the start, end and flags of the seat.
WATCHERS = {
    "no watcher": ("", None),
    "a watcher that is told nothing": (SETTINGS, (0, 0, 17)),
    "a watcher over the whole text": (SETTINGS, (0, UNITS, 18)),
}
CROWDED = MOST_SPANS, "a watcher over the whole text"


def line(**members):
    return json.dumps(members, separators=(",", ":")) + "\n"


def replace(start, end, text):
    return line(op="replace", start=start, end=end, text=text)


def set_span(at, start, end, flags, what):
    return line(op="set_span", id=16 + at, start=start, end=end, flags=flags, what=what)


def setup(spans, seat):
    """The text, spans of one unit that stay attached when it goes, spread behind the place 0, and the seat last."""
    tags = min(spans, MOST_SPANS - (seat is not None))
    lines = [replace(0, 0, "abcdefghi " * (UNITS // 10))]
    for at in range(tags):
        start = 1 + at * (UNITS - 1) // tags
        lines.append(set_span(at, start, start + 1, (17, 18, 34)[at % 3], "tag 1"))
    if seat is not None:
        lines.append(set_span(tags, *seat, "watch 0"))
    return lines


def typing(count):
    """One edit after another at a cursor that never comes to the place 0."""
    chance, length, cursor = random.Random(SEED), UNITS, UNITS // 2
    for _ in range(count):
        kind = chance.random()
        start, end, text = cursor, cursor, chance.choice("etaoinshr ")
        if kind < 0.08 and cursor > 1:
            start, text = cursor - 1, ""
        elif kind > 0.97:
            start = chance.randint(1, length)
            end, text = min(length, start + chance.randint(0, 8)), "word"
        length, cursor = length - (end - start) + len(text), start + len(text)
        yield replace(start, end, text)


class Bench:
    """A combination of spans and a watcher: its files, and what they take."""

    def __init__(self, folder, spans, settings, seat):
        self.settings, self.trace = pathlib.Path(folder) / "settings", pathlib.Path(folder) / "trace"
        self.settings.write_text(settings)
        self.base = setup(spans, seat)
        self.idle = self.seconds(0)

    def write(self, count):
        with self.trace.open("w") as trace:
            trace.writelines(self.base)
            trace.writelines(typing(count))

    def words(self):
        return [PROGRAM, "play", self.settings, self.trace]

    def seconds(self, count):
        self.write(count)
        took = []
        for _ in range(RUNS):
            start = time.perf_counter()
            subprocess.run(self.words(), stdout=subprocess.DEVNULL, check=True)
            took.append(time.perf_counter() - start)
        return min(took)

    def check(self, count):
        """Stops where an edit of the trace isn't done."""
        self.write(count)
        with subprocess.Popen(self.words(), stdout=subprocess.PIPE) as run:
            verdicts = [it.endswith(b" done\n") for it in run.stdout if it.startswith(b"edit ")]
        if len(verdicts) != len(self.base) + count or not all(verdicts):
            sys.exit(f"bench: {verdicts.count(True)} of {len(self.base) + count} edits were done")

    def fitting(self, count):
        """As many lines of these as take a minute, judged by the first ones."""
        each = (self.seconds(PROBE) - self.idle) / PROBE
        return count if each * count <= MOST_SECONDS else max(PROBE, int(MOST_SECONDS / each))


def main():
    count = int(sys.argv[1]) if len(sys.argv) > 1 else COUNT
    crowded = int(sys.argv[2]) if len(sys.argv) > 2 else None
    if not PROGRAM.exists():
        sys.exit("bench: the program is not built: run ./replay once")
    with tempfile.TemporaryDirectory() as folder:
        for spans in SPANS:
            for name, (settings, seat) in WATCHERS.items():
                bench = Bench(folder, spans, settings, seat)
                # A watcher that answers nothing changes no verdict.
                bench.check(count if seat is None else PROBE)
                lines = count if (spans, name) != CROWDED else crowded or bench.fitting(count)
                took = bench.seconds(lines) - bench.idle
                print(f"{spans} spans, {name}: {lines / took:.0f} lines a second, over {lines} lines (set up in {bench.idle:.2f} s)")


if __name__ == "__main__":
    main()
