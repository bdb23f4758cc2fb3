"""Runs of files that no folder holds: those at a limit, and those of bytes that don't show."""
import pathlib

from runs import BLANK_END, both, commands, ended, tell

LETTERS = 65_536
TEXT, SPANS, LINE, SETTINGS = 1_048_576, 4_096, 131_072, 1_048_576
PLACES = "selection -1 -1\nregion -1 -1\n"


def tried(what, trace, output, settings=b"", code=0, text=""):
    """These bytes are played and checked."""
    pathlib.Path("S").write_bytes(settings)
    pathlib.Path("T").write_bytes(trace)
    tell(what, both("S", "T", commands(trace), code, text, output))


def faulty(what, trace, kind, line=1):
    """A trace whose line has this fault, and which prints nothing before it."""
    tried(what, trace, b"", code=2, text=f"fault line {line} {kind}")


def unset(what, settings, kind):
    """Settings with this fault."""
    tried(what, b"", b"", settings, code=3, text=f"fault settings {kind}")


def is_set(what, settings):
    """Settings without a fault."""
    tried(what, b"", BLANK_END, settings)


class Session:
    """A trace that grows command by command, beside what it has to print."""

    def __init__(self):
        self.trace, self.output, self.count = [], [], 0

    def does(self, op, members, *printed):
        """A command, and what stands under its header."""
        self.count += 1
        self.trace.append(f'{{"op":"{op}"{members}}}\n')
        self.output += [f"> {self.count} {op}\n", *(f"{line}\n" for line in printed)]

    def replaces(self, start, end, text, units, verdict, spans=""):
        """A replacement by a text of so many units."""
        members = f',"start":{start},"end":{end},"text":"{text}"{spans}'
        self.does("replace", members, f"edit 0 replace {start} {end} {units} {verdict}")

    def sets(self, ident, start, end, flags, verdict):
        """A span with the what `tag 0` is set."""
        members = f',"id":{ident},"start":{start},"end":{end},"flags":{flags},"what":"tag 0"'
        self.does("set_span", members, f"edit 0 set {ident} {start} {end} {flags} {verdict}")

    def selects(self, start, end, verdict, *printed):
        """A select."""
        self.does("select", f',"start":{start},"end":{end}', f"edit 0 select {start} {end} {verdict}", *printed)

    def ends(self, what, text, length, spans, places=PLACES):
        """The end block, and the run."""
        rows = "".join(f"span {row}\n" for row in spans)
        end = f'end\ntext {length} "{text}"\n{rows}{places}'
        tried(what, "".join(self.trace).encode(), ("".join(self.output) + end).encode())


def batches():
    """255 batches in one another, and no more."""
    it = Session()
    for name, last in (("begin", "nesting-full"), ("end", "not-in-batch")):
        for _ in range(255):
            it.does(name, "", "reply done")
        it.does(name, "", f"reply refused {last}")
    it.ends("batches as deep as they go", "", 0, [])


def incoming(*idents):
    """The member of a replacement that brings spans of one unit."""
    return ',"spans":[%s]' % ",".join(f'"{ident} 0 1 17 tag 0"' for ident in idents)


def no_more_spans():
    """A text with all the spans that it takes: one that is attached may be set, and comes to nothing; another is refused."""
    it = Session()
    for ident in range(3, SPANS + 3):
        it.sets(ident, 0, 0, 34, "done")
    it.sets(4_099, 0, 0, 34, "refused spans-full 4097")
    it.sets(3, 0, 0, 17, "done")
    it.replaces(0, 0, "a", 1, "done", incoming(3))
    it.replaces(0, 0, "", 0, "nochange", incoming(3))
    it.replaces(0, 0, "a", 1, "refused spans-full 4097", incoming(3, 4_099))
    it.replaces(0, 0, "a", 1, "refused spans-full 4098", incoming(4_099, 4_100))
    refused = ("edit 0 select 0 0 refused spans-full 4098", "edit 0 replace 0 0 1 refused spans-full 4097")
    it.does("compose", ',"text":"a","cursor":1', *refused)
    it.does("region", ',"start":0,"end":1', "edit 0 drop nochange", "edit 0 mark 0 1 refused spans-full 4097")
    rows = ["3 0 0 17 tag 0"] + [f"{ident} 1 1 34 tag 0" for ident in range(4, SPANS + 3)]
    it.ends("as many spans as there may be", "a", 1, rows)


def spans_that_come():
    """Room for two more: of four that come three aren't attached yet, and are refused; two come; and then there is no room."""
    it = Session()
    for ident in range(3, SPANS + 1):
        it.sets(ident, 0, 0, 34, "done")
    four, two = ([f'"{ident} 0 0 34 tag 0"' for ident in some] for some in ((4_097, 3, 4_098, 4_099), (4_097, 4_098)))
    it.replaces(0, 0, "", 0, "refused spans-full 4097", f',"spans":[{",".join(four)}]')
    it.replaces(0, 0, "", 0, "done", f',"spans":[{",".join(two)}]')
    it.sets(4_099, 0, 0, 34, "refused spans-full 4097")
    it.selects(0, 0, "refused spans-full 4098")
    it.ends("two more spans that come", "", 0, [f"{ident} 0 0 34 tag 0" for ident in range(3, SPANS + 3)])


def room_for_one():
    """Room for one more span is none for a selection; one that is there moves, and leaves no room for a region."""
    it = Session()
    it.replaces(0, 0, "ab", 2, "done")
    for ident in range(3, SPANS + 2):
        it.sets(ident, 0, 0, 34, "done")
    it.selects(0, 0, "refused spans-full 4097")
    it.does("remove_span", ',"id":3', "edit 0 remove 3 done")
    it.selects(0, 0, "done", "report 0 0 -1 -1")
    it.selects(2, 1, "done", "report 2 1 -1 -1")
    marks = ((0, 1, "mark 0 1 refused spans-full 4097"), (0, 3, "mark 0 2 refused spans-full 4097"), (1, 1, "mark 1 1 ignored"))
    for start, end, mark in marks:
        it.does("region", f',"start":{start},"end":{end}', "edit 0 drop nochange", f"edit 0 {mark}")
    rows = [f"{ident} 0 0 34 tag 0" for ident in range(4, SPANS + 2)] + ["0 2 2 546 sel-start", "1 1 1 34 sel-end"]
    it.ends("room for one more span", "ab", 2, rows, "selection 2 1\nregion -1 -1\n")


def asks(it, start, end, rows, edge):
    """The spans over a range, and the next edge behind its start."""
    it.does("spans_over", f',"start":{start},"end":{end}', f"found {len(rows)}", *(f"span {row}" for row in rows))
    it.does("next_edge", f',"start":{start},"limit":{end}', f"edge {edge}")


def many_spans():
    """A text with a span over each of its units: what is found, what moves, and what is emptied."""
    it = Session()
    it.replaces(0, 0, "a" * SPANS, SPANS, "done")
    for at in range(SPANS):
        it.sets(at + 3, at, at + 1, 33, "done")
    asks(it, 100, 102, ["103 100 101 33 tag 0", "104 101 102 33 tag 0"], 101)
    asks(it, 100, 100, ["102 99 100 33 tag 0", "103 100 101 33 tag 0"], 100)
    it.replaces(2_048, 2_048, "bb", 2, "done")
    found = ["2050 2047 2048 33 tag 0", "2051 2050 2051 33 tag 0", "2052 2051 2052 33 tag 0"]
    asks(it, 2_047, 2_052, found, 2_048)
    asks(it, 2_048, 2_050, [], 2_050)
    it.replaces(100, 200, "", 0, "done")
    asks(it, 99, 101, ["102 99 100 33 tag 0", "203 100 101 33 tag 0"], 100)
    places = [(at, at) for at in range(100)] + [(at, at - 100) for at in range(200, 2_048)]
    places += [(at, at - 98) for at in range(2_048, SPANS)]
    rows = [f"{at + 3} {start} {start + 1} 33 tag 0" for at, start in places]
    it.ends("a span over each unit", "a" * 1_948 + "bb" + "a" * 2_048, 3_998, rows)


def nested_spans():
    """130 spans, each in the one before it: what stands over the middle goes, and their ends gather there."""
    it = Session()
    it.replaces(0, 0, "a" * 260, 260, "done")
    for at in range(130):
        it.sets(at + 3, at, 260 - at, 34, "done")
    it.replaces(100, 160, "", 0, "done")
    it.replaces(100, 100, "bb", 2, "done")
    rows = [f"{at + 3} {at} {202 - at} 34 tag 0" for at in range(100)] + [f"{at + 3} 102 102 34 tag 0" for at in range(100, 130)]
    asks(it, 100, 102, rows, 102)
    asks(it, 102, 103, rows, 103)
    asks(it, 103, 104, rows[:99], 104)
    asks(it, 0, 1, rows[:1], 1)
    asks(it, 99, 202, rows, 102)
    it.ends("130 nested spans", "a" * 100 + "bb" + "a" * 100, 202, rows)


def over(held, start, end):
    """The rows of those spans that lie over a range."""
    for ident, (low, high) in held.items():
        touches, shares = low <= end and start <= high, max(low, start) < min(high, end)
        if touches and (shares or low == high or start == end):
            yield f"{ident} {low} {high} 34 tag 0"


def turns():
    """Which span comes, where, and which one goes, turn by turn."""
    for turn in range(1_200):
        place = 7 * turn % 99
        yield turn, 3 + 37 * turn % 101, (place, place + turn % 3), 3 + (11 * turn + 5) % 101


def spans_in_turns():
    """Spans come, are set elsewhere and go in turns, their ids again and again: those that stand are found in order of attachment."""
    it, held, units = Session(), {}, 101
    it.replaces(0, 0, "a" * units, units, "done")
    for turn, comes, (start, end), goes in turns():
        it.sets(comes, start, end, 34, "done")
        held[comes] = (start, end)
        if turn % 4 < 3:
            verdict = "done" if held.pop(goes, None) else "absent"
            it.does("remove_span", f',"id":{goes}', f"edit 0 remove {goes} {verdict}")
        if turn % 40 == 39:
            it.replaces(start, start, "b", 1, "done", incoming_points(comes, 200 + turn, comes))
            units += 1
            held = {ident: tuple(at + (at >= start) for at in span) for ident, span in held.items()}
            held[200 + turn] = (start, start + 1)
            asks_over(it, held, start, min(start + 9, units))
    it.replaces(20, 60, "", 0, "done")
    held = {ident: tuple(at - min(max(at - 20, 0), 40) for at in span) for ident, span in held.items()}
    asks_over(it, held, 20, 20)
    it.ends("spans in turns", letters_of_turns(), units - 40, [f"{ident} {low} {high} 34 tag 0" for ident, (low, high) in held.items()])


def incoming_points(*idents):
    """The member of a replacement that brings spans of one unit, whose ends go on with what comes at them."""
    return ',"spans":[%s]' % ",".join(f'"{ident} 0 1 34 tag 0"' for ident in idents)


def asks_over(it, held, start, end):
    """The spans over a range, and the next edge behind its start."""
    edges = [at for span in held.values() for at in span if start < at < end]
    asks(it, start, end, list(over(held, start, end)), min(edges, default=end))


def letters_of_turns():
    """The text behind all turns."""
    letters = "a" * 101
    for turn, _, (start, _), _ in turns():
        if turn % 40 == 39:
            letters = letters[:start] + "b" + letters[start:]
    return letters[:20] + letters[60:]


def full_text():
    """A text that is full takes units only for as many."""
    it = Session()
    for _ in range(TEXT // LETTERS):
        it.replaces(0, 0, "a" * LETTERS, LETTERS, "done")
    it.replaces(0, 0, "a", 1, "refused too-long 1048577")
    it.replaces(0, 1, "b", 1, "done")
    it.replaces(TEXT - 1, TEXT, "c", 1, "done")
    it.replaces(524_288, 524_289, "\\ud83d\\ude00", 2, "refused too-long 1048577")
    it.replaces(524_288, 524_290, "\\ud83d\\ude00", 2, "done")
    it.replaces(0, 2, "xyz", 3, "refused too-long 1048577")
    it.ends("a full text", "b" + "a" * 524_287 + "\\ud83d\\ude00" + "a" * 524_285 + "c", TEXT, [])


def long_lines():
    """A line of the most bytes, and one of a byte more: a command, what is none, and blanks."""
    command = b'{"op":"remove_span","id":5}'
    absent = b"> 1 remove_span\nedit 0 remove 5 absent\n" + BLANK_END
    tried("the longest line", command.ljust(LINE), absent)
    tried("the longest blank line", b" " * LINE, BLANK_END)
    for begin in (command, b"[", b""):
        faulty(f"a line that begins with {begin!r} and is too long", begin.ljust(LINE + 1), "line-too-long")


def long_settings():
    """A settings file of the most bytes, and one of a byte more, whatever stands in it."""
    for begin, more in ((b"depth = 8\n", b" "), (b"#", b"-")):
        is_set(f"the longest settings file, of {more!r}", begin.ljust(SETTINGS, more))
        unset(f"a settings file of {more!r} that is too long", begin.ljust(SETTINGS + 1, more), "limit")
    for more in (b" ", b"-"):
        unset(f"a settings file of nothing but {more!r} that is too long", more * (SETTINGS + 1), "limit")
    unset("a settings file that is no TOML and too long", b"=".ljust(SETTINGS + 1), "limit")


# How a document begins, what is repeated in it, and how it ends; so many times; what stands behind that; and its fault.
FILTERS = ("filter = [", "{kind = 'upper'},", "]")
RANGES = ("filter = [{kind = 'allow', ranges = [", "[0, 9],", "]}]")
WATCHERS = ("watcher = [", "{kind = 'echo', numbers = []},", "]")
COUNTED = [
    (FILTERS, 8, "", None),
    (FILTERS, 9, "", "limit"),
    (FILTERS, 7, "{}", "key"),
    (FILTERS, 8, "{}", "limit"),
    (FILTERS, 8, "1", "value"),
    (RANGES, 1_024, "", None),
    (RANGES, 1_025, "", "limit"),
    (RANGES, 1_023, "1", "value"),
    (RANGES, 1_024, "1", "limit"),
    (WATCHERS, 1, "", None),
    (WATCHERS, 8, "", "watcher"),
    (WATCHERS, 9, "", "limit"),
    (WATCHERS, 7, "{}", "key"),
    (WATCHERS, 8, "{}", "limit"),
    (WATCHERS, 8, "1", "value"),
]


def counted():
    """How many filters, ranges and watchers there may be."""
    for (front, each, back), count, last, fault in COUNTED:
        what, text = f"{count} times {each} {last}", f"{front}{each * count}{last}{back}".encode()
        unset(what, text, fault) if fault else is_set(what, text)


def deep_lines():
    """Arrays nest 127 deep."""
    for depth, fault in ((127, "not-object"), (128, "json"), (200, "json")):
        faulty(f"arrays {depth} deep", b"[" * depth + b"]" * depth, fault)


def most_spans():
    """A line brings at most 64 spans."""
    it = Session()
    spans = [f'"{ident} 0 0 34 tag 7"' for ident in range(3, 67)]
    it.replaces(0, 0, "", 0, "done", f',"spans":[{",".join(spans)}]')
    it.ends("64 spans in a line", "", 0, [f"{ident} 0 0 34 tag 7" for ident in range(3, 67)])
    spans.append('"67 0 0 34 tag 7"')
    line = f'{{"op":"replace","start":0,"end":0,"text":"","spans":[{",".join(spans)}]}}'
    faulty("65 spans in a line", line.encode(), "text")


LETTER = b'{"op":"replace","start":0,"end":0,"text":"a"}'
FIRST = b"edit 0 replace 0 0 1 done\n"
LETTER_END = b'end\ntext 1 "a"\n' + PLACES.encode()
BLANKS = b"\n" + LETTER + b'\n \t\r\n\n{"op":"remove_span","id":5}\n'
NOT_JSON = [
    b'{"op":"a\x01"}',
    b'\xef\xbb\xbf{"op":"remove_span","id":5}',
    b'{"op":"remove_span","id":5,"\xe9":1}',
    b'{"op":"replace","start":0,"end":0,"text":"\xff"}',
    b"\xff",
    b"\x0b",
]


def odd_bytes():
    """Blanks, ends of lines, and bytes that are no text."""
    tried("blank lines are counted", BLANKS, b"> 2 replace\n" + FIRST + b"> 5 remove_span\nedit 0 remove 5 absent\n" + LETTER_END)
    tried("blank lines alone", b"\n \r\n", BLANK_END)
    tried("a last line without its end", b"\n" + LETTER, b"> 2 replace\n" + FIRST + LETTER_END)
    tried("a carriage return behind a command", LETTER + b"\r\n", b"> 1 replace\n" + FIRST + LETTER_END)
    faulty("a faulty line behind a blank one", b" \t\r\n[]", "not-object", 2)
    for line in NOT_JSON:
        faulty(f"the line {line!r}", line, "json")
    unset("settings that are no UTF-8", b"# \xe9\n", "toml")


def run():
    """All of them."""
    for part in (batches, no_more_spans, spans_that_come, room_for_one, many_spans, nested_spans, spans_in_turns, full_text):
        part()
    for part in (long_lines, long_settings, counted, deep_lines, most_spans, odd_bytes):
        part()
