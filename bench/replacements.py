#!/usr/bin/env python3
"""Times replacements in a text of a million units under 4,096 spans.

usage: bench/replacements.py [COUNT]      COUNT: how many replacements (default 2000)

Runs the built program on a trace that only sets up text and spans, and on the same trace with COUNT replacements
behind it, and prints the difference for each kind: of one unit at the text's end, in its middle and at its start; of
one unit that brings 64 spans whose ids are attached; and of 60,000 units with as many, plain and through four filters.
"""
import json
import pathlib
import subprocess
import sys
import tempfile
import time

PROGRAM = pathlib.Path(__file__).resolve().parent.parent / "crates/replay_cli/out/replay_cli"
UNITS, SPANS, BLOCK, PIECE = 1_000_000, 4_096, 50_000, 60_000
FILTERS = """filter = [{ kind = "upper" }, { kind = "no-newline" }, { kind = "length", max = 1048576 },
    { kind = "allow", ranges = [[32, 32], [65, 90]] }]
"""


def line(**members):
    return json.dumps(members, separators=(",", ":")) + "\n"


def setup():
    lines = [line(op="replace", start=0, end=0, text="abcdefghi\n" * (BLOCK // 10)) for _ in range(UNITS // BLOCK)]
    step = UNITS // SPANS
    for at in range(SPANS):
        flags = (17, 18, 33, 34)[at % 4]
        lines.append(line(op="set_span", id=16 + at, start=at * step, end=at * step + step // 2, flags=flags, what="tag 1"))
    return "".join(lines)


def replace(start, end, text, **members):
    return line(op="replace", start=start, end=end, text=text, **members)


def kinds():
    """The name of a kind, the settings that it runs under, and one replacement."""
    piece = "abcdefghi " * (PIECE // 10)
    brought = [f"{16 + at} 0 1 17 tag 1" for at in range(64)]
    yield "of a unit at the end", "", replace(UNITS, UNITS, "x")
    yield "of a unit in the middle", "", replace(UNITS // 2, UNITS // 2, "x")
    yield "of a unit at the start", "", replace(0, 0, "x")
    yield "of a unit that brings 64 spans", "", replace(0, 0, "x", spans=brought)
    yield "of 60,000 units", "", replace(0, PIECE, piece)
    yield "of 60,000 units, filtered", FILTERS, replace(0, PIECE, piece)


def seconds(settings, trace, folder):
    path, settings_path = pathlib.Path(folder) / "trace", pathlib.Path(folder) / "settings"
    path.write_text(trace)
    settings_path.write_text(settings)
    best = None
    for _ in range(3):
        start = time.perf_counter()
        subprocess.run([PROGRAM, "play", settings_path, path], stdout=subprocess.DEVNULL, check=True)
        took = time.perf_counter() - start
        best = took if best is None else min(best, took)
    return best


def main():
    count = int(sys.argv[1]) if len(sys.argv) > 1 else 2000
    if not PROGRAM.exists():
        sys.exit("bench: the program is not built: run ./replay once")
    base = setup()
    with tempfile.TemporaryDirectory() as folder:
        for name, settings, edit in kinds():
            idle = seconds(settings, base, folder)
            took = seconds(settings, base + edit * count, folder) - idle
            print(f"{count} replacements {name}: {took:.2f} s, {1e6 * took / count:.0f} us each (set up in {idle:.2f} s)")


if __name__ == "__main__":
    main()
