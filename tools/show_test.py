#!/usr/bin/env python3
"""The test of tools/show.py: its words on the example maps, its refusals beside those of program `fill` on damaged maps, and bad input.

Usage: show_test.py FILL (from the repository's root). The last line counts the checks; the status is 1 where one is wrong."""
import collections
import io
import itertools
import os
import pathlib
import random
import re
import subprocess
import sys
import tempfile
import types
import xml.etree.ElementTree

ROOT = pathlib.Path(__file__).resolve().parent.parent
SHOW = ROOT / "tools" / "show.py"
sys.path[:0] = [str(ROOT / "tools"), str(ROOT / "examples")]
sys.dont_write_bytecode = True
import show
from make_archive import BASE, weigher

FILL = sys.argv[1]
ARCHIVE, CABINETS = ROOT / "examples" / "archive.map", ROOT / "examples" / "cabinets.map"
SPACE = tempfile.TemporaryDirectory()
checks = wrong = 0


def check(name, got, want):
    global checks, wrong
    checks += 1
    if got != want:
        wrong += 1
        print(f"show: {name}: {got!r:.600}, and not {want!r:.600}")


def fill(data):
    return subprocess.run([FILL], input=data, stdout=subprocess.PIPE, check=True).stdout


def run(*arguments, given=b""):
    """The status of show.py, called in here, and what it printed and told."""
    outside = sys.argv, sys.stdin, sys.stdout, sys.stderr
    printed, told = io.TextIOWrapper(io.BytesIO(), "utf-8"), io.StringIO()
    sys.argv, sys.stdin, sys.stdout, sys.stderr = ["show.py", *map(str, arguments)], io.TextIOWrapper(io.BytesIO(given)), printed, told
    try:
        status = show.main()
    finally:
        sys.argv, sys.stdin, sys.stdout, sys.stderr = outside
    return status, printed.buffer.getvalue().decode(), told.getvalue()


def start(*arguments, stdout=subprocess.PIPE, **more):
    """The same, as a program of its own."""
    done = subprocess.run([SHOW, *map(str, arguments)], stdout=stdout, stderr=subprocess.PIPE, **more)
    return done.returncode, (done.stdout or b"").decode(), done.stderr.decode()


def kept(name, data):
    """A file of these bytes."""
    path = pathlib.Path(SPACE.name) / name
    path.write_bytes(data)
    return path


# ---- the example maps

CABINETS_TREE = """\
                type  kind   weight  accepts          of its bucket  of its tree
bucket 0000        2  straw   80000                               -         100%  10 drives, 2 of them dead
  bucket 0001      1  straw   16000                             20%          20%  2 drives
    drive 0010     0           8000  65536, always              50%          10%
    drive 0011     0           8000  65536, always              50%          10%
  bucket 0002      1  straw   16000                             20%          20%  DEAD: none of its 2 drives takes anything
    drive 0020     0           8000  0, never (dead)            50%          10%
    drive 0021     0           8000  0, never (dead)            50%          10%
"""
CABINETS_RULE = """
4 groups, each a list of 3 places. The rule:
  1. take bucket 0000
  2. select through 3 of type 1, a drive beneath each
  3. emit, which makes 3 places
"""
CABINETS_ROWS = """\
group 0 (00000000): 1. drive 0050 in 0000/0005; 2. drive 0031 in 0000/0003; 3. drive 0041 in 0000/0004
group 1 (00000001): 1. drive 0041 in 0000/0004; 2. drive 0051 in 0000/0005; 3. drive 0030 in 0000/0003
group 2 (00000002): 1. drive 0031 in 0000/0003; 2. drive 0041 in 0000/0004; 3. drive 0011 in 0000/0001
group 3 (00000003): 1. drive 0011 in 0000/0001; 2. drive 0051 in 0000/0005; 3. drive 0030 in 0000/0003
"""
HOLES_SUMMARY = """\
4 rows of 3 places, 3 holes
  holes at place 1: 1
  holes at place 2: 0
  holes at place 3: 2
rows with holes: 3

            places  by weight  ratio  weight  accepts
drive 0010       0        1.2   0.00    8000  65536, always
drive 0011       2        1.2   1.67    8000  65536, always
drive 0020       0        1.2   0.00    8000  0, never (dead)
drive 0021       0        1.2   0.00    8000  0, never (dead)
drive 0030       2        1.2   1.67    8000  65536, always
drive 0031       0        1.2   0.00    8000  65536, always
drive 0040       1        1.2   0.83    8000  65536, always
drive 0041       1        1.2   0.83    8000  65536, always
drive 0050       2        1.2   1.67    8000  65536, always
drive 0051       1        1.2   0.83    8000  65536, always
"""
ARCHIVE_LINES = {
    1: "bucket 0000          3  straw  2640000                               -         100%  224 drives, 3 of them dead",
    3: "    bucket 0010      1  straw    48000                           4.84%        1.82%  12 drives",
    20: "      drive 0013     0            4000  0, never (dead)          8.33%       0.152%",
    91: "      drive 0070     0           20000  32768, 50%               12.5%       0.758%",
}
ARCHIVE_MOVES = """\
group 147 (00000093), place 2: from drive 0020 in 0000/0001/0012 to drive 0026 in 0000/0001/0012; cause 01, the edited drive's own acceptance
group 278 (00000116), place 2: from drive 0020 in 0000/0001/0012 to drive 0029 in 0000/0001/0012; cause 01, the edited drive's own acceptance
"""
ARCHIVE_END = """\
line 1035: refused with 18 (1f12): the frame is no edit, the drive is not in the map, or the value is out of its range; mend the line; \
program operate takes the lines 23, 24, 2c and 2d too
10 moves in 10 groups, 10 of cause 01; 1 refusal
  cause 01: the edited drive passes its own acceptance test in only one of the two runs, before and after the edit
"""
# as operate prints them: a return, one to a name that is not stored, and a store of a ninth name
RETURNED = b"""\
1300000093020026002004
1300000116020029ffff04
1f18
1f19
"""
RETURNED_TOLD = """\
group 147 (00000093), place 2: from drive 0026 in 0000/0001/0012 to drive 0020 in 0000/0001/0012; cause 04, a return to a stored state
group 278 (00000116), place 2: from drive 0029 in 0000/0001/0012 to a hole; cause 04, a return to a stored state
line 3: refused with 24 (1f18): no state is stored under the name; return to a name that was stored since the map was loaded
line 4: refused with 25 (1f19): eight states are stored, none of them under the name; store under one of the eight names, which replaces its \
state, or load the map again, which empties all of them
2 moves in 2 groups, 2 of cause 04; 2 refusals
  cause 04: a return to a stored state: every drive has the weight and the acceptance again that it had when the state's name was last stored
"""
NAMED = """\
# the archive
drive 0020 = rack2 <slot 0> & more
bucket 0012 = Zürich cabinet 2

bucket 0000 = archive
type 0 = disk
type 1 = cabinet
type 2 = site
"""
NAMED_MOVE = ("group 147 (00000093), place 2: from rack2 <slot 0> & more (0020) in archive/site 0001/Zürich cabinet 2 to disk 0026 in "
              "archive/site 0001/Zürich cabinet 2; cause 01, the edited drive's own acceptance")
HEAVIER = """\
MAP is refused with 23 (1f17).
The question answered no: Is the weight written for each bucket the sum of its children's weights?
line 226: 020000030100284880
    bucket 0000 is written with 2640000, and its children weigh 2648000: the line should be 0200000301002867c0
line 227: 0200010201000f2300
    bucket 0001 is written with 992000, and its children weigh 1000000: the line should be 0200010201000f4240
line 232: 020012010100017700
    bucket 0012 is written with 96000, and its children weigh 104000: the line should be 020012010100019640
What to do: write the sums, from the lowest buckets on; an edit of a drive's weight brings them up to date by itself.
"""


def good(name, got, want):
    """That a command ends well, and what it prints."""
    status, out, told = got
    check(name, (status, told), (0, ""))
    check(name, out, want)


def test_examples():
    archive, cabinets = ARCHIVE.read_bytes(), CABINETS.read_bytes()
    _, out, _ = run("tree", CABINETS)
    check("tree, its head", out[:len(CABINETS_TREE)], CABINETS_TREE)
    check("tree, the rule", out[-len(CABINETS_RULE):], CABINETS_RULE)
    status, out, _ = run("tree", "-", given=archive)
    lines = out.split("\n")
    check("tree of the archive", (status, {at: lines[at] for at in ARCHIVE_LINES}), (0, ARCHIVE_LINES))

    good("rows", start("rows", CABINETS, input=fill(cabinets)), CABINETS_ROWS)
    good("rows without a map", run("rows", given=b"11000000010000ffff\n"), "group 1 (00000001): 1. drive 0000; 2. a hole\n")
    two = cabinets.replace(b"040503010000", b"040303010000\n040301000000").replace(b"050023", b"050024")
    good("summary with holes", run("summary", kept("two", two), given=fill(two)), HOLES_SUMMARY)
    good("summary without a map", run("summary", given=b"11000000010000ffff\n11000000020000ffff\n11000000030003ffff\n"),
         "3 rows of 2 places, 3 holes\n  holes at place 1: 0\n  holes at place 2: 3\nrows with holes: 3\n\n"
         "            places  of all held\ndrive 0000       2        66.7%\ndrive 0003       1        33.3%\n")

    dead = fill(archive + b"21002000000000\n21002000010001\n")
    status, out, _ = run("moves", ARCHIVE, given=dead)
    check("moves", (status, out[:len(ARCHIVE_MOVES)], out[-len(ARCHIVE_END):]), (0, ARCHIVE_MOVES, ARCHIVE_END))
    good("moves of a return", run("moves", ARCHIVE, given=RETURNED), RETURNED_TOLD)
    # between them may stand the lines that were given
    good("moves of a return, with its lines", run("moves", ARCHIVE, given=b"230001\n" + RETURNED.replace(b"1f18", b"240001\n1f18", 1)),
         RETURNED_TOLD.replace("line 4", "line 6").replace("line 3", "line 5"))
    names = kept("names", b"\xef\xbb\xbf" + NAMED.replace("\n", "\r\n").encode())
    for command in (("moves", ARCHIVE, "--names", names), ("--names", names, "moves", ARCHIVE)):
        check("moves with names", run(*command, given=dead)[1].split("\n")[0], NAMED_MOVE)
    check("tree with names", [line for line in run("tree", ARCHIVE, "--names", names)[1].split("\n") if "Zürich" in line or "<slot" in line],
          ["    Zürich cabinet 2 (0012)            1  straw    96000                           9.68%        3.64%  12 drives",
           "      rack2 <slot 0> & more (0020)     0            8000  65536, always            8.33%       0.303%"])

    # the table with the moves put in is that of the map with the value in its file, and later rows stand for earlier ones
    after = fill(archive.replace(b"\n01002000001f4000010000", b"\n01002000001f4000000000"))
    plain = run("summary", ARCHIVE, given=after)[1]
    check("summary with moves", run("summary", ARCHIVE, given=dead)[1], plain.replace("0 holes\n", "0 holes, 10 moves put in\n", 1))
    good("summary with rows twice", run("summary", ARCHIVE, given=fill(archive) + after), plain)

    good("why, a good map", start("why", CABINETS), f"{CABINETS} loads: 4 groups, lists of 3 places, 10 drives, 6 buckets, a rule of 3 steps.\n")
    path = kept("heavier", archive.replace(b"\n01002000001f40", b"\n01002000003e80"))
    good("why 23", run("why", path), HEAVIER.replace("MAP", str(path)))


# ---- moves, back from their words

IN_WORDS = re.compile(r"group (\d+) \(([0-9a-f]{8})\), place (\d+): from (.*) to (.*); cause (\d\d), ([^;]*)")


def drive_in(words):
    found = re.search(r"drive ([0-9a-f]{4}) in", words)
    return found[1] if found else "ffff"


def test_moves(rng):
    archive = ARCHIVE.read_bytes()
    cabinets = CABINETS.read_bytes().replace(b"040400000000", b"040400000000\n040100000000\n040302000000\n040400000000").replace(b"050023", b"050026")
    causes = collections.Counter()
    for data in (archive, cabinets, cabinets.replace(b"040503010000", b"040304000000")):
        drives = re.findall(rb"^01(....)", data, re.MULTILINE)
        forms = (b"21%s00000000\n", b"21%s00010000\n", b"22%s00000000\n", b"22%s00009000\n")
        printed = fill(data + b"".join(rng.choice(forms) % rng.choice(drives) for _ in range(40)))
        frames = [line for line in printed.decode().split("\n") if line.startswith("13")]
        _, out, _ = run("moves", kept("moved", data), given=printed)
        back = []
        for found in map(IN_WORDS.fullmatch, out.split("\n")):
            if found:
                group, digits, place, old, new, cause, words = found.groups()
                check("a group's two spellings", int(group), int(digits, 16))
                check("a cause's words", words, show.CAUSES[int(cause)][0])
                back.append(f"13{digits}{int(place):02x}{drive_in(old)}{drive_in(new)}{cause}")
                causes[cause] += 1
        check("moves back from their words", back, frames)
    check("all causes are met", sorted(causes), ["01", "02", "03"])


# ---- maps, and their damage

class Draft:
    """A map as lists of the fields of its lines."""

    def __init__(self, rng):
        self.groups, self.drives, self.links, self.steps, self.more = rng.choice((1, 2, 3, 9)), [], [], [], 0
        shapes, numbers, drives = [], rng.sample(range(256), 255), rng.sample(range(1024), 400)

        def drive():
            self.drives.append([drives.pop(), rng.choice((0, 1, 300, 8000, 65535)), rng.choice((65536, 65536, 65536, 40000, 0))])
            return self.drives[-1][0]

        def bucket(type_):
            number = numbers.pop()
            shapes.append([number, type_, rng.choice((1, 2))])
            for _ in range(rng.choice((1, 1, 2, 3))):
                below = rng.randrange(min(type_, 4))
                self.links.append([number, BASE + bucket(below) if below else drive()])
            return number

        tops = [(bucket(type_), type_) for type_ in rng.choices((1, 2, 3, 4, 200), k=rng.choice((1, 1, 2, 3)))]
        for _ in range(rng.choice((0, 0, 1, 3))):
            drive()
        for _ in range(rng.choice((1, 1, 2))):
            self.steps += self.block(rng, *rng.choice(tops))
        self.drives.sort()
        self.links.sort()
        weight_of = weigher(self.drives, self.links)
        self.buckets = sorted([*shape, weight_of(BASE + shape[0])] for shape in shapes)

    @staticmethod
    def block(rng, bucket, type_):
        between = rng.sample(range(1, type_), min(type_ - 1, rng.choice((0, 1, 2))))
        selects = [[rng.choice((2, 3, 3)), rng.choice((1, 2)), below] for below in sorted(between, reverse=True) + [0]]
        if len(selects) > 1 and rng.random() < 0.3:
            selects.pop()
            selects[-1][0] = 5
        return [[1, 0, 0, bucket], *([*select, 0] for select in selects), [4, 0, 0, 0]]

    def lines(self):
        lines = [f"00{self.groups:08x}"]
        for form, records in (("01{:04x}{:08x}{:08x}", self.drives), ("02{:04x}{:02x}{:02x}{:08x}", self.buckets), ("03{:04x}{:08x}", self.links),
                              ("04{:02x}{:02x}{:02x}{:04x}", self.steps)):
            lines += [form.format(*record) for record in records]
        return lines + [f"05{len(lines) + self.more:04x}"]

    def bytes(self):
        return "".join(line + "\n" for line in self.lines()).encode()


def of_bytes(rng, data):
    """Question 1."""
    at = rng.randrange(len(data))
    return rng.choice((data.replace(b"\n", b"\r\n"), data.replace(b"\n", b"\r"), data.upper(), data[:at] + b" " + data[at:], b"\xef\xbb\xbf" + data,
                       data[:at], data[:-1], b"", data.decode().encode("utf-16"), data[:at] + bytes([rng.randrange(256)]) + data[at + 1:],
                       b"\n" * 65536 + data, bytes(rng.randrange(256) for _ in range(200)), data[:-6] + b"5" * 65536))


def of_lines(rng, lines):
    """Questions 2 to 4, and what else becomes of lines that are lost, doubled or changed."""
    at = rng.randrange(len(lines))
    line = lines[at]
    buckets = [index for index, other in enumerate(lines) if other.startswith("02")]
    old = rng.choice(buckets)
    ways = ("", line[:-1], line + "0", "06" + line[2:], line[:1], "21002000000000", None, f"{line}\n{line}", lines[rng.randrange(len(lines))])
    way = rng.randrange(len(ways) + 4)
    if way < len(ways):
        lines[at:at + 1] = [] if ways[way] is None else [ways[way]]
    elif way == len(ways):
        lines[old] = lines[old][:rng.choice((8, 10))]
    elif way == len(ways) + 1:
        rng.shuffle(lines)
    elif way == len(ways) + 2:
        del lines[rng.choice((0, -1))]
    else:
        spot = rng.randrange(len(line))
        lines[at] = line[:spot] + rng.choice("0123456789abcdef") + line[spot + 1:]
    return lines


def out_of_range(rng, draft):
    """Question 5."""
    fields = (
        (draft.drives, ((0, 1024), (1, 65536), (2, 65537))),
        (draft.buckets, ((0, 256), (1, 0), (2, 0), (2, 3))),
        (draft.links, ((0, 256), (1, 1024), (1, 65535), (1, 65792))),
        (draft.steps, ((0, 0), (0, 6), (1, 17), (1, 0), (2, 255), (3, 256), (3, 1), (2, 1))),
    )
    if rng.random() < 0.15:
        draft.groups = rng.choice((0, 65537))
    else:
        records, values = rng.choice([field for field in fields if field[0]])
        at, value = rng.choice(values)
        rng.choice(records)[at] = value


def disordered(rng, draft):
    """Question 6."""
    records = rng.choice((draft.drives, draft.buckets, draft.links))
    at = rng.randrange(len(records))
    if rng.random() < 0.5:
        records.insert(at, list(records[at]))
    else:
        records.append(records.pop(at))


def absent(rng, draft):
    """Question 7."""
    records = rng.choice((draft.drives, draft.buckets, draft.steps))
    if records is draft.steps or len(records) == 1:
        rng.choice([step for step in draft.steps if step[0] == 1])[3] = rng.randrange(256)
    else:
        records.pop(rng.randrange(len(records)))


def twice(rng, draft):
    """Question 8."""
    draft.links.append([rng.choice(draft.buckets)[0], rng.choice(draft.links)[1]])
    draft.links.sort()


def mistyped(rng, draft):
    """Question 9."""
    rng.choice(draft.buckets)[1] = rng.choice((1, 2, 3, 255))


def unfilled(rng, draft):
    """Question 22."""
    bucket = rng.choice(draft.buckets)[0]
    draft.links = [link for link in draft.links if link[0] != bucket]


def crowded(rng, draft):
    """Question 10: a bucket of 64 children or of 65."""
    bucket = rng.choice(draft.buckets)[0]
    known = {drive for drive, _, _ in draft.drives}
    lack = rng.choice((64, 65)) - sum(link[0] == bucket for link in draft.links)
    for drive in rng.sample([drive for drive in range(1024) if drive not in known], lack):
        draft.drives.append([drive, 0, 65536])
        draft.links.append([bucket, drive])
    draft.drives.sort()
    draft.links.sort()


def misruled(rng, draft):
    """Question 11."""
    at = rng.randrange(len(draft.steps))
    way = rng.randrange(6)
    if way == 0:
        draft.steps = []
    elif way == 1:
        draft.steps *= 17 // len(draft.steps) + rng.choice((0, 1))
    elif way == 2:
        draft.steps.pop(at)
    elif way == 3:
        draft.steps.insert(at, list(rng.choice(draft.steps)))
    elif way == 4:
        rng.shuffle(draft.steps)
    else:
        step = rng.choice([step for step in draft.steps if step[0] not in (1, 4)])
        step[rng.choice((0, 2))] = 5


def through_drives(rng, draft):
    """Question 21."""
    rng.choice([step for step in draft.steps if step[0] not in (1, 4)])[0::2] = [5, 0]


def wide(rng, draft):
    """Question 12: about the most places of a block and of all."""
    for step in draft.steps:
        if step[0] not in (1, 4):
            step[1] = rng.choice((4, 5, 8, 16))
    if rng.random() < 0.5:
        draft.steps = (draft.steps * 3)[:15]


def misweighed(rng, draft):
    """Question 23."""
    for _ in range(rng.choice((1, 1, 2, 3))):
        if rng.random() < 0.5:
            rng.choice(draft.drives)[1] = rng.randrange(65536)
        else:
            rng.choice(draft.buckets)[3] = rng.choice((0, 1, 2 ** 32 - 1, 65536))


def miscounted(rng, draft):
    """Question 4."""
    draft.more = rng.choice((-1, 1, 5, 1000))


# those that leave nothing for others, as a rule without steps, come last
DAMAGES = (absent, twice, mistyped, crowded, disordered, through_drives, wide, misweighed, unfilled, misruled, miscounted, out_of_range)


def damaged(rng, *damages):
    draft = Draft(rng)
    for damage in damages:
        damage(rng, draft)
    return draft.bytes()


def of_changed_lines(rng):
    lines = Draft(rng).lines()
    for _ in range(rng.choice((1, 1, 2))):
        lines = of_lines(rng, lines)
    if rng.random() < 0.5 and lines:
        lines[-1] = f"05{len(lines) - 1:04x}"
    return "".join(line + "\n" for line in lines).encode()


def edges(data):
    """Maps at the very edge of a question, from one of cabinets of drives."""
    start = data[:data.index(b"\n04") + 1]

    def ruled(*steps):
        return start + b"".join(step + b"\n" for step in steps) + b"05%04x\n" % (start.count(b"\n") + len(steps))

    take, emit = b"040100000000", b"040400000000"
    one, through = b"040301010000", b"040502010000"
    short, full = (take, b"040301000000", emit), (take, b"040310000000", emit)
    long = take, one, *short[1:]
    yield from (ruled(*long * 4), ruled(*short * 3, *long * 2), ruled(*full * 2), ruled(*full * 2, *short))
    for selects in ((), (one,), (one, one, short[1]), (through, short[1]), (one, through), (b"040501000000",), (one, b"040501000000")):
        yield ruled(take, *selects, emit)
    yield from (ruled(take, select, emit) for select in (b"040300000000", b"040311000000", b"040301ff0000", b"0403010000ff", b"0403010000"))
    yield from (ruled(other, *short[1:]) for other in (b"040100010000", b"040101000000", b"040100000100"))
    yield data.replace(b"050023", b"0500230") + b"21ZZ\n"
    yield data[:-1] + b"0\n21ZZ"
    # a bucket in 03 lines alone, which no other names
    yield data.replace(b"\n02", b"\n01006000001f4000010000\n02", 1).replace(b"\n04", b"\n03000600000060\n04", 1).replace(b"050023", b"050025")


def told_why(path, **more):
    return list(show.why(types.SimpleNamespace(map=str(path), whole=False, **more)))


def check_why(data, answers):
    """That `why` tells of a map what program `fill` answers, and cites its lines as they are."""
    printed = fill(data)
    number = int(printed[2:4], 16) if printed.startswith(b"1f") else 0
    told = told_why(kept("why", data))
    found = re.search(r" is refused with (\d+) \(1f(..)\)\.$", told[0])
    spelled = (int(found[1]), int(found[2], 16)) if found else (0, 0)
    if number == 16:
        check("why, a table without room", (spelled, any("refuses it with 16 (1f10)" in line for line in told)), ((0, 0), True))
    else:
        check(f"why of {data[-300:]!r}", spelled, (number, number))
    answers[number] += 1
    lines = show.lines_of(show.through_05(data)[0])
    cited = [re.match(r"line (\d+): (.*)", line) for line in told]
    check("lines cited", all(found[2] == show.plain(lines[int(found[1]) - 1]) for found in cited if found), True)
    if number in (4, 23) and len(told) < 20:
        mended = data.decode()
        for place, line in zip(cited, told[1:]):
            should = re.search(r"should be ([0-9a-f]+)", line)
            if place and should:
                mended = mended.replace(place[2] + "\n", should[1] + "\n")
        after = fill(mended.encode())
        check(f"mended as {number} told", after.startswith(b"11") if number == 23 else after != b"1f04\n", True)


def test_why(rng):
    answers = collections.Counter()
    maps = [damaged(rng, damage) for damage in DAMAGES for _ in range(24)]
    maps += [damaged(rng, *pair) for pair in itertools.combinations(DAMAGES, 2) for _ in range(3)]
    maps += [of_bytes(rng, Draft(rng).bytes()) for _ in range(60)] + [of_changed_lines(rng) for _ in range(150)]
    maps += [Draft(rng).bytes() for _ in range(60)] + list(edges(CABINETS.read_bytes()))
    for data in maps:
        check_why(data, answers)
    large = Draft(rng)
    large.groups = 65536
    check_why(large.bytes(), answers)
    few = {number: answers[number] for number in show.ASKS if answers[number] < 8}
    check("each question is answered no often enough", few, {})
    return answers


def whys_of(data):
    """What the words of a refusal have to name, and a map with that fault."""
    return (
        ("byte 13", data.replace(b"\n", b"\r\n")), ("the first of 36 in the map", data.replace(b"\n", b"\r\n")),
        ("column 12: the capital F (the digits are lower-case), the first of 10 capitals in the map", data.replace(b"f", b"F")),
        ("column 1: a blank", data.replace(b"\n0200", b"\n 0200")),
        ("BOM", b"\xef\xbb\xbf" + data), ("UTF-16", data.decode().encode("utf-16")), ("the map is empty", b""),
        ("the newline (byte 10) behind the last line is missing", data[:-1]),
        ("the map is cut off: its last line has no newline (byte 10). The line has 5 bytes, and one of kind 01 has 22", data[:200]),
        ("65536 are the most", b"0\n" * 40000),
        ("an empty line", data.replace(b"\n04", b"\n\n04", 1)), ("this is an edit", data.replace(b"050023", b"21001000000000")),
        ("before change 6", data.replace(b"\n020001010100003e80", b"\n0200010101")),
        ("before change 4", data.replace(b"\n020001010100003e80", b"\n02000101")),
        ("the 05 line is missing", data.replace(b"050023\n", b"")),
        ("1 line was lost, or it should be 050023", data.replace(b"050023", b"050024")),
        ("2 lines were added, or it should be 050023", data.replace(b"050023", b"050021")),
        ("the field acceptance is 65537 (00010001), and is to be 0 to 65536", data.replace(b"01001000001f4000010000", b"01001000001f4000010001")),
        ("the drive of line 3 is there twice", data.replace(b"\n010011", b"\n010010")),
        ("the bucket of line 16 comes behind a higher one", data.replace(b"\n02000401", b"\n02000001")),
        ("the child, drive 0020, has no 01 line", data.replace(b"01002000001f4000000000\n", b"").replace(b"050023", b"050022")),
        ("drive 0011 is a child of bucket 0001 and of bucket 0002", data.replace(b"03000200000020", b"03000200000011")),
        ("bucket 0001 is of type 2, which is not below 2", data.replace(b"\n02000101", b"\n02000102")),
        ("bucket 0005 has no 03 line", data.replace(b"03000500000050\n03000500000051\n", b"").replace(b"050023", b"050021")),
        ("type 2 is not below 2, the type of the bucket taken", data.replace(b"040503010000", b"040503020000")),
        ("a step 5 of type 0", data.replace(b"040503010000", b"040503000000")),
        ("4 x 5 = 20 places, and 16 are the most", data.replace(b"040503010000", b"040304010000\n040305000000").replace(b"050023", b"050024")),
    )


def test_why_words():
    data = CABINETS.read_bytes()
    for words, other in whys_of(data):
        told = "\n".join(told_why(kept("named", other)))
        check(f"why names {words!r}: {told}", words in told, True)
    edits = data + b"21001000000000\n21001100000000\n22001000000001"
    told = run("why", kept("edits", edits))[1]
    check("lines behind the map", "3 lines follow the 05 line: program fill takes them as edits" in told and "refuses it with 1 (1f01)" in told, True)
    for number, other in ((2, edits + b"\n"), (3, data + data)):
        path = kept("whole", other)
        told = run("why", "--whole", path)[1]
        check("why --whole", told.split("\n")[0], f"{path} is refused with {number} (1f{number:02x}).")
        check("why --whole, its words", "takes the map alone" in told or "a line behind the 05 line" in told, True)


# ---- trees of many shapes

def test_trees(rng):
    """Each bucket and drive stands in the tree once, as deep as it is in the map, with its weight."""
    deep = Draft(rng)
    deep.drives, deep.buckets = [[7, 5, 65536]], [[number, number + 1, 1 + number % 2, 5] for number in range(255)]
    deep.links = [[0, 7]] + [[number, BASE + number - 1] for number in range(1, 255)]
    deep.steps = [[1, 0, 0, 254], [3, 2, 0, 0], [4, 0, 0, 0]]
    for draft in [deep] + [Draft(rng) for _ in range(60)]:
        holder = {child: bucket for bucket, child in draft.links}

        def depth(item):
            return 1 + depth(BASE + holder[item]) if item in holder else 0

        want = sorted([f"{'  ' * depth(BASE + number)}bucket {number:04x}", str(type_), ("straw", "tree")[kind - 1], str(weight)]
                      for number, type_, kind, weight in draft.buckets)
        want += sorted([f"{'  ' * (depth(number) or 1)}drive {number:04x}", "0", str(weight), f"{acceptance},"]
                       for number, weight, acceptance in draft.drives)
        told = list(show.tree(types.SimpleNamespace(map=str(kept("tree", draft.bytes())), names=None)))
        shown = [re.match(r"( *(?:bucket|drive) [0-9a-f]{4}) +(.*)", line) for line in told]
        shown = [[found[1], *found[2].split()[:3]] for found in shown if found]
        check("a tree", sorted(row for row in shown if "bucket" in row[0]) + sorted(row for row in shown if "drive" in row[0]), want)


# ---- the picture

def test_pictures():
    """A bar for each drive, and one for each place where there are holes."""
    svg = pathlib.Path(SPACE.name) / "picture.svg"
    named = ARCHIVE, "--names", kept("names", NAMED.encode())
    full = "".join(f"11{group:08x}" + "".join(f"{32 * group + place:04x}" for place in range(32)) + "\n" for group in range(32)).encode()
    for arguments, given, drives, places in ((named, fill(ARCHIVE.read_bytes()), 224, 0), ((), full, 1024, 0), ((), b"11000000000003ffff\n", 1, 2),
                                             ((), b"1100000000ffff\n", 0, 1)):
        check("summary with a picture", run("summary", *arguments, "--svg", svg, given=given)[0], 0)
        titles = [title.text for title in xml.etree.ElementTree.parse(svg).iter("{http://www.w3.org/2000/svg}title")]
        of_places = sum(title.startswith("place ") for title in titles)
        check("bars of the picture", (len(titles) - of_places, of_places), (drives, places))
        check("a name in the picture", any("rack2 <slot 0> & more (0020): 10 places" in title for title in titles), arguments is named)


# ---- bad input

ROW = b"1100000000001000110030\n"
BAD_FRAMES = (
    ("1: a row is 11", b"110000000000100\n"),
    ("2: the row has 2 places, and the lists of the map have 3", ROW + b"110000000100100011\n"),
    ("1: column 23: byte 13", ROW.replace(b"\n", b"\r\n")),
    ("1: column 1: byte 239", b"\xef\xbb\xbf" + ROW),
    ("1: column 13: the capital F", ROW.replace(b"0010", b"00F0")),
    ("1: the line is none that the programs print", b"77\n"),
    ("1: 0400 is no drive of the map", ROW.replace(b"0010", b"0400")),
    ("1: group 4 is not below 4", b"1100000004" + ROW[10:]),
    ("2: a move has 22 digits", ROW + b"130000000001001000110"),
    ("2: place 4 is none of 1 to 3", ROW + b"1300000000040010001101"),
    ("2: a move from a place to itself", ROW + b"1300000000010010001001"),
    ("2: 07 is no cause", ROW + b"1300000000010010001107"),
    ("2: 05 is no cause: these are 01, 02, 03 and 04", ROW + b"1300000000010010001105"),
    ("2: a refusal is 1f", ROW + b"1f1a"),
    ("2: a refusal is 1f", ROW + b"1f"),
    ("2: a refusal is 1f", ROW + b"1fff"),
)
BAD_MOVES = (
    ("2: a move of group 1, place 1, and no row", ROW + b"1300000001010010001101\n"),
    ("2: a move from 0011, and place 1 of group 0 holds 0010", ROW + b"1300000000010011001001\n"),
)
BAD_NAMES = (
    ("the map has no drive 0012", b"drive 0012 = a"),
    ("the map has no bucket 0099", b"bucket 0099 = b"),
    ("the map has no type 9", b"type 9 = hall"),
    ("the number of a drive is four digits", b"drive 12 = a"),
    ("drive 0020 has a name already, by line 1", b"drive 0020 = b"),
    ("the line is not UTF-8", b"drive 0021 = \xff"),
    ("a line is `drive", b"shelf 1 = x"),
    ("a line is `drive", b"drive 0021 ="),
    ("the name has a character that cannot be shown, U+001B", b"drive 0021 = \x1b[1m"),
)


def bad(name, got, status, words):
    """That bad input is told of on standard error alone, in these words."""
    check(f"{name}: the status", got[0], status)
    check(f"{name}: {got[2]!r} has {words!r}", words in got[2], True)


def test_bad_input():
    here = pathlib.Path(SPACE.name)
    noise = kept("noise", bytes(range(256)) * 3)
    for command in ("tree", "moves", "rows", "summary", "why"):
        bad("no such file", run(command, here / "absent"), 1, "absent: cannot read it: No such file or directory")
        bad("a directory", run(command, here), 1, "cannot read it: Is a directory")
        if command != "why":
            bad("noise", run(command, noise), 1, "noise:1: the map is refused with 1 (1f01)")
            bad("an empty map", run(command, kept("empty", b"")), 1, "empty: the map is refused with 1 (1f01): the map is empty")
        if command in ("moves", "rows", "summary"):
            bad("the map from standard input", run(command, "-"), 2, "the map cannot come from standard input")
    bad("no command", run(), 2, "usage")
    bad("no map", run("tree"), 2, "usage")
    bad("another command", run("draw"), 2, "usage")
    for command in ("rows", "summary"):
        bad("no rows", run(command), 1, "standard input: there are no rows")
        bad("a refused map", run(command, given=b"1f17\n"), 1, "the map was refused with 23 (1f17)")
    check("no moves", run("moves", ARCHIVE), (0, "0 moves in 0 groups; 0 refusals\n", ""))

    commands = itertools.cycle(("moves", "rows", "summary"))
    for words, given in BAD_FRAMES:
        bad("a bad frame", run(next(commands), CABINETS, given=given), 1, f"standard input:{words}")
    for words, given in BAD_MOVES:
        bad("a move that the table does not have", run("summary", given=given), 1, f"standard input:{words}")
    for words, line in BAD_NAMES:
        bad("a bad name", run("tree", CABINETS, "--names", kept("bad", b"drive 0020 = a\n" + line + b"\n")), 1, f"bad:2: {words}")
    bad("no names", run("tree", CABINETS, "--names", here / "absent"), 1, "absent: cannot read it")
    loose = CABINETS.read_bytes().replace(b"\n02", b"\n01006000001f4000010000\n02", 1).replace(b"050023", b"050024")
    status, out, _ = run("summary", kept("loose", loose), "--svg", here / "loose.svg", given=b"1100000000001000110060\n")
    for words in ("(the map has 4 groups: not every one has a row here)", "drive 0060       1        0.0      -"):
        check(f"a row of another map, {words}", (status, words in out), (0, True))
    bad("no place for the picture", run("summary", "--svg", here, given=ROW), 1, "cannot write it: Is a directory")
    with open("/dev/full", "wb") as end:
        bad("standard output is full", start("tree", ARCHIVE, stdout=end), 1, "cannot write standard output: No space left on device")
    bad("standard output is closed", start("why", CABINETS, preexec_fn=lambda: os.close(1)), 1, "standard output is closed")
    bad("standard input is closed", start("rows", preexec_fn=lambda: os.close(0)), 1, "standard input: it is closed")
    reader, writer = os.pipe()
    os.close(reader)
    check("a terminal of another language", start("--help", env={**os.environ, "PYTHONIOENCODING": "ascii"})[2], "")
    check("a reader that went away", start("tree", ARCHIVE, stdout=writer)[2], "")
    os.close(writer)


def main():
    rng = random.Random(21)
    test_examples()
    test_moves(rng)
    answers = test_why(rng)
    test_why_words()
    test_trees(rng)
    test_pictures()
    test_bad_input()
    numbers = ", ".join(f"{number} {count} times" for number, count in sorted(answers.items()) if number)
    print(f"show: {sum(answers.values())} maps beside program fill, {answers[0]} of them good; refused with {numbers}")
    print(f"show: {checks} checks, {wrong} wrong")
    return 1 if wrong else 0


if __name__ == "__main__":
    sys.exit(main())
