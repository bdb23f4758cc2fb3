"""Runs what stands in the folder sessions/; sessions/README.md says how it is read."""
import pathlib

from runs import BLANK_END, TOP, both, commands, ended, said, tell

SESSIONS = TOP / "sessions"
SUFFIXES = {".trace", ".toml", ".out", ".end", ".lines", ".settings"}
CUT = "connection/a_typing_session"


def named(path):
    """What a case is called."""
    return str(path.relative_to(SESSIONS).with_suffix(""))


def read_end(path):
    """The code and the text of an end: done, where no file says otherwise."""
    if not path.exists():
        return 0, ""
    code, text = path.read_text().rstrip("\n").split(" ", 1)
    return int(code), text


def session(trace):
    """A trace is played and checked."""
    settings = trace.with_suffix(".toml")
    output = trace.with_suffix(".out")
    code, text = read_end(trace.with_suffix(".end"))
    count = commands(trace.read_bytes())
    wanted = output.read_bytes() if output.exists() else b""
    tell(named(trace), both(settings if settings.exists() else "-", trace, count, code, text, wanted))


def rows(path):
    """The rows of a table: their numbers, the fault that is wanted, or ok, and what stands behind the tab."""
    for number, row in enumerate(path.read_text().splitlines(), 1):
        if row and not row.startswith("#"):
            yield number, *row.split("\t", 1)


def lines(table):
    """Each row is a trace of one line, which has this fault or is a command."""
    for number, fault, line in rows(table):
        trace = pathlib.Path("T")
        trace.write_text(f"{line}\n")
        where = f"{named(table)}, line {number}"
        if fault == "ok":
            tell(where, [("checked", ended(["check", "-", trace]), (0, b"", b"ok 1\n"))])
        else:
            tell(where, both("-", trace, 1, 2, f"fault line 1 {fault}", b""))


def files(table):
    """Each row is a settings file that has this fault, or none, over an empty trace."""
    pathlib.Path("T").write_bytes(b"")
    for number, fault, text in rows(table):
        settings = pathlib.Path("S")
        settings.write_bytes(text.replace("\\n", "\n").replace("\\r", "\r").encode())
        where = f"{named(table)}, line {number}"
        if fault == "ok":
            tell(where, both(settings, "T", 0, 0, "", BLANK_END))
        else:
            tell(where, both(settings, "T", 0, 3, f"fault settings {fault}", b""))


def sections(output):
    """What each command of an output printed, and behind them the end block."""
    parts = output.replace(b"\n> ", b"\n\0> ").replace(b"\nend\n", b"\n\0end\n").split(b"\0")
    return parts[:-1], parts[-1]


def cut_off():
    """A session cut behind each of its bytes: a line that is cut has a fault, and else what stands is run to its end."""
    trace = (SESSIONS / f"{CUT}.trace").read_bytes()
    printed, _ = sections((SESSIONS / f"{CUT}.out").read_bytes())
    for length in range(len(trace)):
        rest = trace[:length]
        whole = rest.count(b"\n") + (trace[length : length + 1] == b"\n")
        is_cut = not rest.endswith(b"\n") and trace[length : length + 1] != b"\n" and length > 0
        pathlib.Path("T").write_bytes(rest)
        code, error, output = ended(["play", SESSIONS / f"{CUT}.toml", "T"])
        before = b"".join(printed[:whole])
        found = [("the code", code, 2 if is_cut else 0)]
        found.append(("standard error", error, said(f"fault line {whole + 1} json") if is_cut else b""))
        found.append(("what the lines print", output[: len(before)], before))
        found.append(("what follows", output[len(before) :][:4], b"" if is_cut else b"end\n"))
        tell(f"{CUT}, cut behind {length} bytes", found)


def strays():
    """Files that belong to no case, so that none is left out for its name."""
    for path in sorted(SESSIONS.rglob("*")):
        is_part = path.suffix in {".toml", ".out", ".end"} and not path.with_suffix(".trace").exists()
        if path.is_file() and path.name != "README.md" and (is_part or path.suffix not in SUFFIXES):
            yield str(path.relative_to(SESSIONS))


def run():
    """All cases. The room where tables are written is the folder that the script stands in."""
    kinds = ((".trace", session), (".lines", lines), (".settings", files))
    tell("sessions/", [("files that belong to no case", list(strays()), [])])
    for suffix, case in kinds:
        found = sorted(SESSIONS.rglob(f"*{suffix}"))
        tell("sessions/", [(f"cases {suffix}", bool(found), True)])
        for path in found:
            case(path)
    cut_off()
