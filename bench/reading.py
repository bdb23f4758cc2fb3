#!/usr/bin/env python3
"""Times what reading a line costs, beside what running it costs.

usage: bench/reading.py [COUNT]      COUNT: how many replacements (default 2000000)

Runs `play` and `check` of the built program over COUNT replacements of about 50 bytes each, in a text of a thousand
units that keeps its length, and over a trace of the text alone, and prints the difference for each line.
"""
import pathlib
import subprocess
import sys
import tempfile
import time

PROGRAM = pathlib.Path(__file__).resolve().parent.parent / "crates/replay_cli/out/replay_cli"
UNITS = 1_000


def setup():
    return '{"op":"replace","start":0,"end":0,"text":"%s"}\n' % ("abcdefghi " * (UNITS // 10))


def replacements(count):
    """Each makes one unit another, so the text keeps its length."""
    for at in range(count):
        start = at * 7 % (UNITS - 1)
        yield '{"op":"replace","start":%d,"end":%d,"text":"%s"}\n' % (start, start + 1, "xy"[at % 2])


def seconds(task, path):
    best = None
    for _ in range(3):
        start = time.perf_counter()
        subprocess.run([PROGRAM, task, "-", path], stdout=subprocess.DEVNULL, check=True)
        took = time.perf_counter() - start
        best = took if best is None else min(best, took)
    return best


def main():
    count = int(sys.argv[1]) if len(sys.argv) > 1 else 2_000_000
    if not PROGRAM.exists():
        sys.exit("bench: the program is not built: run ./replay once")
    with tempfile.TemporaryDirectory() as folder:
        idle, full = pathlib.Path(folder) / "idle", pathlib.Path(folder) / "full"
        idle.write_text(setup())
        with full.open("w") as trace:
            trace.write(setup())
            trace.writelines(replacements(count))
        bytes_each = (full.stat().st_size - idle.stat().st_size) / count
        each = {}
        for task in ("check", "play"):
            each[task] = 1e9 * (seconds(task, full) - seconds(task, idle)) / count
            print(f"{task}: {each[task]:.0f} ns a line of {bytes_each:.0f} bytes, over {count} replacements")
        print(f"play takes {each['play'] / each['check']:.2f} times check")


if __name__ == "__main__":
    main()
