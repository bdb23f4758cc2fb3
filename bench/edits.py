#!/usr/bin/env python3
"""Times replacements, sets, removals, queries and commands themselves, without a trace that is read.

usage: bench/edits.py [COUNT]      COUNT: how many of the replacements that move nothing are done (default 2000000)

Runs the built program of crates/text_bench for each kind of replacement, at a million units with no span, under 4,096
short ones, and where 1,000 of them lie in one another; from end to end at 1,048,576 units; for each query; and for each
command of an editor, with all that it plans, does and prints. Prints the nanoseconds that one takes: the least of
several runs less the least of as many that only set up the text. What goes to many spans at once is told for each of
them. Beside them stand the nanoseconds that are wanted, where there is such a figure; of a command that is three times
what a typed unit takes, as a command too.
"""
import pathlib
import subprocess
import sys
import time
import typing

PROGRAM = pathlib.Path(__file__).resolve().parent.parent / "crates/text_bench/out/text_bench"
UNITS, MOST_UNITS, MOST_SPANS, COUNT, FEW, RUNS = 1_000_000, 1_048_576, 4_096, 2_000_000, 20_000, 5
NESTED = 1_000

# As the tool has it: how many units go at once, and to how many texts some kinds are done, one behind the other.
RANGE, TEXTS = 4_096, 16
IN_TEXTS = ("emptying", "gone", "moved", "new", "removal")

# A text that commands are given has a selection, and may have a composing region.
KEPT = 3
# How many of each command are done: many where the text keeps its length, and else as it has room, or as the tool typed.
COMMANDS = {"typed": 48_000, "select": 400_000, "report": 400_000, "compose": 400_000, "commit": 48_000, "delete": FEW}


class Case(typing.NamedTuple):
    """A kind, how many units and spans there are, how many spans lie in one another, and how often it is done to a text."""

    kind: str
    units: int
    spans: int
    nested: int
    count: int


def cases(count):
    """What is measured, and the figure that is wanted."""
    few = min(count, FEW)
    yield Case("cursor", UNITS, 0, 0, count), "at most 135, as a first step 400"
    yield Case("anywhere", UNITS, 0, 0, few), "at most 60000"
    yield Case("backspace", UNITS, 0, 0, min(count, UNITS // 2)), None
    yield Case("ends", UNITS, 0, 0, few), None
    for nested in (0, NESTED):
        yield Case("cursor", UNITS, MOST_SPANS, nested, count), "at most 20"
        yield Case("near", UNITS, MOST_SPANS, nested, few), "at most 600"
        yield Case("anywhere", UNITS, MOST_SPANS, nested, few), "at most 4000 more than without spans"
        yield Case("emptying", UNITS, MOST_SPANS, nested, 1_000), "at most 1000"
        yield Case("gone", UNITS, MOST_SPANS, nested, 1), "at most 150 for each span"
        yield Case("moved", UNITS, MOST_SPANS, nested, 1), "at most 150 for each span"
        yield Case("new", UNITS, MOST_SPANS - 1_024, nested, 1_024), "at most 600"
        yield Case("removal", UNITS, MOST_SPANS, nested, 1_024), "at most 600"
        yield Case("put", UNITS, MOST_SPANS, nested, few), "at most 1200"
        yield Case("query", UNITS, MOST_SPANS, nested, few), "at most 150"
        yield Case("edge", UNITS, MOST_SPANS, nested, few), "at most 350"
    # The spans of the units that go stand at the cursor from then on, more and more of them: each is moved each time.
    yield Case("backspace", UNITS, MOST_SPANS, 0, few), "at most 3000, as a first step 25000"
    yield Case("ends", UNITS, MOST_SPANS, 0, few), None
    yield Case("pile", UNITS, MOST_SPANS, 0, count), None
    yield Case("clear", MOST_SPANS, MOST_SPANS, 0, min(count, FEW // 10)), None
    yield Case("ends", MOST_UNITS, 0, 0, few), None
    yield Case("ends", MOST_UNITS, MOST_SPANS, 0, few), None
    for spans in (0, MOST_SPANS - KEPT):
        for kind, done in COMMANDS.items():
            yield Case(kind, UNITS, spans, 0, done), None


def length_after(case):
    """How long the text is then. A cursor takes back what it brought once the text is full."""
    kind, units, count = case.kind, case.units, case.count
    if kind in ("cursor", "pile"):
        return units + (count - 1) % (MOST_UNITS - units) + 1 if count else units
    if kind == "delete":
        return units + FEW - count
    if kind == "compose":
        return units + 2 * (count > 0)
    if kind in ("gone", "moved"):
        return units - RANGE * count
    grown = {"anywhere": count, "near": count, "typed": count, "commit": count, "backspace": -count, "emptying": -count}
    return units + grown.get(kind, 0)


def points_over(case, units):
    """How many spans go with the units of a range, in a text where every fourth one is a POINT_MARK."""
    apart = case.units // max(1, case.spans)
    starts = (min(at * apart, case.units - 1) for at in range(case.spans) if at % 4 == 2)
    return sum(start in units for start in starts)


def spans_after(case):
    """How many spans there are then."""
    kind, spans, count, middle = case.kind, case.spans, case.count, case.units // 2
    if kind in COMMANDS:
        return spans + 2 + (kind == "compose" and count > 0)
    if kind == "backspace":
        return spans - points_over(case, range(middle - count, middle))
    if kind == "clear":
        return spans - points_over(case, range(case.units if count else 0))
    if kind == "gone":
        return case.nested if count else spans
    return spans + {"new": count, "removal": -count, "emptying": -count}.get(kind, 0)


def done_in_all(case):
    """How much is done, by which the time is divided."""
    each = case.spans - case.nested if case.kind in ("gone", "moved") else 1
    return case.count * each * (TEXTS if case.kind in IN_TEXTS else 1)


def seconds(case):
    """What the fastest of some runs takes. Stops where the text isn't what it has to be."""
    took = []
    for _ in range(RUNS):
        start = time.perf_counter()
        run = subprocess.run([PROGRAM, *(str(word) for word in case)], stdout=subprocess.PIPE, check=True)
        took.append(time.perf_counter() - start)
        wanted = f"{length_after(case)} units, {spans_after(case)} spans, "
        if not run.stdout.decode().startswith(wanted):
            sys.exit(f"bench: {case}: {run.stdout.decode()!r} in place of {wanted!r}")
    return min(took)


def main():
    count = int(sys.argv[1]) if len(sys.argv) > 1 else COUNT
    if not PROGRAM.exists():
        sys.exit("bench: the program is not built: run `rt run -- ends 1 0 0 0` in crates/text_bench once")
    each = {}
    for case, wanted in cases(count):
        idle = seconds(case._replace(count=0))
        took = each[case[:4]] = 1e9 * (seconds(case) - idle) / done_in_all(case)
        if case.kind in COMMANDS and case.kind != "typed":
            wanted = f"at most {3 * each['typed', *case[1:4]]:.0f}"
        beside = f", wanted {wanted}" if wanted else ""
        under = f"{case.spans} spans" + (f", {case.nested} of them in one another" if case.nested else "")
        print(f"{case.kind}, {case.units} units, {under}: {took:.0f} ns each{beside} (over {done_in_all(case)}, set up in {idle:.3f} s)")
    for spans in (0, MOST_SPANS):
        most = max((it for it in each if it[2] == spans and it[0] not in COMMANDS), key=each.get)
        print(f"with {spans} spans the worst case is {most[0]} at {most[1]} units")


if __name__ == "__main__":
    main()
