"""Runs of the built program: how one is made, how its end is compared with the end that it has to have, and what is counted."""
import difflib
import os
import pathlib
import subprocess

TOP = pathlib.Path(__file__).resolve().parent.parent
PROGRAM = pathlib.Path(os.environ.get("PROGRAM") or TOP / "crates/replay_cli/out/replay_cli").resolve()
MOST_SECONDS = 30
MOST_LINES, MOST_WIDTH = 40, 200

BLANK_END = b'end\ntext 0 ""\nselection -1 -1\nregion -1 -1\n'

passed, failed = 0, 0


def tell(what, found):
    """Counts what was tried, and says what differs: each of found is a name, what came and what is wanted."""
    global passed, failed
    wrong = [it for it in found if it[1] != it[2]]
    passed, failed = passed + (not wrong), failed + bool(wrong)
    for name, came, wanted in wrong:
        if isinstance(came, bytes) and isinstance(wanted, bytes):
            print(f"program: {what}: {name}:", *difference(came, wanted), sep="\n  ")
        else:
            print(f"program: {what}: {name}: {came!r:.{MOST_WIDTH}}, and has to be {wanted!r:.{MOST_WIDTH}}")


def difference(came, wanted):
    """The first lines in which bytes differ: - is wanted and didn't come, + came and isn't wanted."""
    parts = ([repr(line)[2:-1] for line in text.split(b"\n")] for text in (wanted, came))
    lines = list(difflib.unified_diff(*parts, lineterm="", n=2))[2:]
    more = [f".. {len(lines) - MOST_LINES} more lines"] if len(lines) > MOST_LINES else []
    return [line[:MOST_WIDTH] for line in lines[:MOST_LINES]] + more


def ended(words, stdout=subprocess.PIPE, **how):
    """Runs the program on words, and gives its code, its standard error, and its standard output where nothing else takes that."""
    how = {"stdin": subprocess.DEVNULL, "stderr": subprocess.PIPE, "timeout": MOST_SECONDS, **how}
    try:
        run = subprocess.run([PROGRAM, *words], stdout=stdout, **how)
    except subprocess.TimeoutExpired:
        return f"none within {MOST_SECONDS} seconds", b"", b""
    return run.returncode, run.stderr, run.stdout


def said(text):
    """What stands on standard error."""
    return f"{text}\n".encode() if text else b""


def ends(words, code, text, output, name=""):
    """What is found of a run on words that has to end with this code, text and output."""
    names = (f"{name}the code", f"{name}standard error", f"{name}standard output")
    return list(zip(names, ended(words), (code, said(text), output)))


def commands(trace):
    """How many lines of a trace aren't blank."""
    return sum(1 for line in trace.split(b"\n") if line.strip(b" \t\r"))


def both(settings, trace, count, code, text, output):
    """What is found where files are played, and where they are checked: then the fault is the same, and nothing is run."""
    counted = b"ok %d\n" % count if code == 0 else b""
    played = ends(["play", settings, trace], code, text, output)
    return played + ends(["check", settings, trace], code, text, counted, "checked, ")
