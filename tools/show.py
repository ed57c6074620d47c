#!/usr/bin/env python3
"""Shows maps, and what the programs print, to people. It is no part of the proofs, and needs python3 alone.

  show.py tree MAP              the buckets and drives, with weights, acceptances and shares, and the rule in words
  fill <INPUT | show.py moves MAP      each move in words
  fill <MAP | show.py rows [MAP]       each row in words
  fill <MAP | show.py summary [MAP]    holes by place, and places by drive against its weight; --svg FILE draws it too
  show.py why MAP               why a map is refused: the question, the lines at fault, what to do

`show.py COMMAND --help` says more of each."""
import argparse
import collections
import functools
import math
import os
import re
import signal
import struct
import sys
from xml.sax.saxutils import escape

MOST_BYTES = 65536
BASE = 65536  # a bucket's item number is this and its own number
ALWAYS = 65536  # the acceptance of a drive that takes all that is drawn for it
MOST_DRIVES, MOST_BUCKETS = 1024, 256
MOST_CHILDREN, MOST_STEPS, MOST_IN_BLOCK, MOST_IN_ALL = 64, 16, 16, 32
TABLE_PLACES = 32768  # the room that program `fill` has for its table
HOLE = 0xffff
TAKE, FIRST_N, INDEPENDENT, EMIT, THROUGH = 1, 2, 3, 4, 5
SELECTS = {FIRST_N: "first-n", INDEPENDENT: "independent", THROUGH: "through"}
KINDS = {1: "straw", 2: "tree"}
MOST_TOLD = 10  # so many faults of a map are told, the rest are counted

# the fields of each kind of line, with their digits
FIELDS = {
    "00": (("groups", 8),),
    "01": (("drive", 4), ("weight", 8), ("acceptance", 8)),
    "02": (("bucket", 4), ("type", 2), ("kind", 2), ("weight", 8)),
    "03": (("bucket", 4), ("child", 8)),
    "04": (("step", 2), ("count", 2), ("type", 2), ("bucket", 4)),
    "05": (("lines before it", 4),),
}
LENGTHS = {kind: 2 + sum(digits for _, digits in fields) for kind, fields in FIELDS.items()}

# made of docs/questions.tsv by tools/questions.py: begin
# what is wrong by each number, and what to do
REFUSALS = {
    1: ("the map is empty, longer than 65,536 bytes, cut off, or has a byte that is no lower-case digit",
        "copy the whole file again; no blanks, no capitals, no byte 13"),
    2: ("a line is of no kind 00 to 05, or not of its kind's length",
        "mend that line; an 02 from before change 6 lacks the eight digits of its weight, and one from before change 4, which brought trees, "
        "the two of its kind ahead of them too: 01 makes it the straw that it was"),
    3: ("the kinds of lines are out of order, or 00 or 05 is missing or there twice",
        "put the lines in order"),
    4: ("the 05 line does not tell the number of lines before it",
        "lines were lost or added: find them, then put the number right"),
    5: ("a field is out of its range",
        "mend the field"),
    6: ("drives, buckets or children do not strictly rise",
        "sort them; take out what is there twice"),
    7: ("a bucket or a child is named that the map does not have",
        "add its line, or take the name out"),
    8: ("an item is a child twice",
        "take it out of one bucket"),
    9: ("a child's type is not below its bucket's",
        "mend the types"),
    10: ("a bucket has more than 64 children",
         "put a level of buckets between"),
    11: ("the rule is not 1 to 16 steps in blocks of take, selects and emit, with types that fall to 0 or end at a step 5",
         "mend the rule; a step 5 is the last select of its block"),
    12: ("the list is wider than 16 places in a block, or 32 in all",
         "select fewer"),
    13: ("the drives weigh more than 67,107,840 in all",
         "no map comes so far: report it"),
    14: ("load would not take the map, or the states lent are none of this map's: crush_sizes_of tells which",
         "only in calls from C: ask crush_sizes_of, which tells the map's question answered no and leaves the states; where it answers 0 they "
         "are at fault: take the copy kept of them, or empty them with crush_load"),
    15: ("the map has no such group",
         "only in calls from C: ask for a group below G, the number of the map's groups"),
    16: ("the space or the table lent is too small",
         "of program fill, groups x W is above 32,768: take program operate, or fewer groups or copies; in calls from C: lend more"),
    17: ("the rule has a first-n select, and such a map takes no edit and no return",
         "change the map's file, and compare the tables before and after"),
    18: ("the frame is no edit, the drive is not in the map, or the value is out of its range",
         "mend the line; program operate takes the lines 23, 24, 2c and 2d too"),
    19: ("the table is not what fill gives",
         "only in calls from C, of edit, return and ceiling: fill it again"),
    20: ("the edit or return makes more moves than the space lent has room for",
         "the programs have room for 2,849: edit in smaller steps, or change the map's file and compare the tables before and after; in calls "
         "from C: lend more"),
    21: ("a step 5 has type 0",
         "give it the type of the buckets to go through, or make it a step 3"),
    22: ("a bucket has no child",
         "put in what it is to hold, at weight 0 if it is not there yet, or take the bucket out"),
    23: ("the weight written for a bucket is not the sum of its children's",
         "write the sums, from the lowest buckets on; an edit of a drive's weight brings them up to date by itself"),
    24: ("no state is stored under the name",
         "return to a name that was stored since the map was loaded"),
    25: ("eight states are stored, none of them under the name",
         "store under one of the eight names, which replaces its state, or load the map again, which empties all of them"),
}

# load's questions in the engine's order, without the notes behind them
QUESTIONS = {
    1: "Has the map 1 to 65,536 bytes, the last a newline, all others lower-case hexadecimal digits or newlines?",
    2: "Is each line of kind 00 to 05, at that kind's length?",
    3: "Is there one 00 first, then the 01s, 02s, 03s and 04s, and one 05 last?",
    4: "Does the 05 tell the number of lines before it?",
    5: "Is each field in its range, and 0 where unused?",
    6: "Do the drives, the buckets and the (bucket, child) pairs strictly rise?",
    7: "Is every bucket and child of an 03, and every bucket taken, present?",
    8: "Is no item a child twice?",
    9: "Is each child's type below its bucket's?",
    22: "Has each bucket a child?",
    10: "Has each bucket at most 64 children?",
    11: "Has the rule 1 to 16 steps, in blocks of take, selects and emit, with types that strictly fall from the bucket taken to 0, or to a "
        "step 5 (select through), behind which its block has no further select?",
    21: "Has no step 5 type 0?",
    12: "Is the list at most 16 places wide in a block and 32 in all?",
    23: "Is the weight written for each bucket the sum of its children's weights?",
    13: "Do the drives weigh at most 67,107,840 in all?",
}
# made of docs/questions.tsv by tools/questions.py: end

# a cause in a few words for each move, and in whole words once
CAUSES = {
    1: ("the edited drive's own acceptance",
        "the edited drive passes its own acceptance test in only one of the two runs, before and after the edit"),
    2: ("another child wins a draw by the edited drive's weight",
        "another child wins a draw: in a straw bucket the one that is or holds the edited drive, in the run where that drive weighs more; in a tree "
        "that run turns to the side that holds it"),
    3: ("held by an earlier place in only one of the two runs",
        "in only one of the two runs an earlier place of the list holds the drive, or an earlier place of the same select the bucket; what changed "
        "that place is 01, 02 or 03 again, and at last 01 or 02"),
    4: ("a return to a stored state",
        "a return to a stored state: every drive has the weight and the acceptance again that it had when the state's name was last stored"),
}


class Trouble(Exception):
    """Bad input: the file, the line if it is one, and what is wrong there."""

    def __init__(self, file, line, what):
        super().__init__(f"{file}:{line}: {what}" if line else f"{file}: {what}")


# ---- words

def counted(count, thing, things=None):
    return f"{count} {thing if count == 1 else things or thing + 's'}"


def percent(part, whole):
    """A part in percent, three digits of it; 0 and 100 are told of nothing and of all only."""
    if not whole:
        return "-"
    share = 100 * part / whole
    if part in (0, whole):
        return f"{share:.0f}%"
    return "<0.001%" if share < 0.001 else ">99.9%" if share > 99.9 else f"{share:.3g}%"


def told_number(number):
    """A refusal's number, and as the programs print it."""
    return f"{number} (1f{number:02x})"


def plain(line):
    """A line of bytes as text that a terminal can show."""
    text = "".join(chr(byte) if 32 <= byte < 127 else f"\\x{byte:02x}" for byte in line[:60])
    return text if len(line) <= 60 else f"{text}... ({len(line)} bytes)"


def named_byte(byte):
    """What a byte is that is no lower-case digit."""
    if byte == 13:
        return "byte 13 (a line end CRLF or CR, as Windows editors write; the lines end with byte 10 alone)"
    if byte in b"ABCDEF":
        return f"the capital {chr(byte)} (the digits are lower-case)"
    if byte in b" \t":
        return "a blank" if byte == 32 else "a tab"
    return f"the character {chr(byte)}" if 32 < byte < 127 else f"byte {byte}, which is no ASCII text"


def columns(rows, right):
    """Rows of cells as lines, each column as wide as its widest cell; those in `right` stand to the right."""
    widths = [max(map(len, column)) for column in zip(*rows)]
    for row in rows:
        yield "  ".join(cell.rjust(wide) if at in right else cell.ljust(wide) for at, (cell, wide) in enumerate(zip(row, widths))).rstrip()


# ---- the map

Line = collections.namedtuple("Line", "at text kind values")
Fault = collections.namedtuple("Fault", "lines what")  # the numbers of the lines at fault, the first of them first
Block = collections.namedtuple("Block", "bucket selects")


def through_05(data):
    """The input cut as the programs do: through the first line that begins with 05, and the rest; all of it if there is none."""
    found = re.search(rb"^05.*\n?", data, re.MULTILINE)
    end = found.end() if found else len(data)
    return data[:end], data[end:]


def lines_of(data):
    """The lines without their newlines, an unended last one too."""
    lines = data.split(b"\n")
    return lines if lines[-1] else lines[:-1]


def item_words(item):
    return f"drive {item:04x}" if item < BASE else f"bucket {item - BASE:04x}"


class Map:
    """A map's text. What is beyond the lines is read once the questions before have been answered yes."""

    def __init__(self, data):
        self.data = data
        self.lines = lines_of(data)

    @functools.cached_property
    def records(self):
        found = []
        for at, line in enumerate(self.lines, 1):
            text, start, values = line.decode("ascii"), 2, []
            for _, digits in FIELDS[text[:2]]:
                values.append(int(text[start:start + digits], 16))
                start += digits
            found.append(Line(at, text, text[:2], tuple(values)))
        return found

    def of(self, kind):
        return [record for record in self.records if record.kind == kind]

    @functools.cached_property
    def groups(self):
        return self.records[0].values[0]

    @functools.cached_property
    def drives(self):
        """The line of each drive by its number."""
        return {record.values[0]: record for record in self.of("01")}

    @functools.cached_property
    def buckets(self):
        return {record.values[0]: record for record in self.of("02")}

    @functools.cached_property
    def children(self):
        """The items in each bucket."""
        found = {bucket: [] for bucket in self.buckets}
        for record in self.of("03"):
            bucket, child = record.values
            found[bucket].append(child)
        return found

    @functools.cached_property
    def holder(self):
        """The bucket that each item is in."""
        return {child: bucket for bucket, children in self.children.items() for child in children}

    def type_of(self, item):
        return 0 if item < BASE else self.buckets[item - BASE].values[1]

    @functools.cached_property
    def weights(self):
        """What each item weighs: a bucket as much as its children, the lowest buckets first."""
        found = {drive: record.values[1] for drive, record in self.drives.items()}
        for bucket in sorted(self.buckets, key=lambda number: self.type_of(BASE + number)):
            found[BASE + bucket] = sum(found[child] for child in self.children[bucket])
        return found

    @functools.cached_property
    def blocks(self):
        """The rule's blocks: the bucket taken, and the selects' lines."""
        found = []
        for record in self.of("04"):
            step, _, _, bucket = record.values
            if step == TAKE:
                found.append(Block(bucket, []))
            elif step in SELECTS:
                found[-1].selects.append(record)
        return found

    @functools.cached_property
    def widths(self):
        """The places of each block: the product of its counts."""
        return [functools.reduce(lambda places, select: places * select.values[1], block.selects, 1) for block in self.blocks]

    @functools.cached_property
    def width(self):
        return sum(self.widths)

    def beneath(self, bucket):
        """The numbers of the drives in a bucket, nested buckets included, in the order of the tree."""
        found, waiting = [], [BASE + bucket]
        while waiting:
            item = waiting.pop()
            if item < BASE:
                found.append(item)
            else:
                waiting += reversed(self.children[item - BASE])
        return found

    def above(self, item):
        """The buckets above an item, the highest first."""
        path = []
        while item in self.holder:
            path.insert(0, self.holder[item])
            item = BASE + self.holder[item]
        return path

    @functools.cached_property
    def roots(self):
        """The buckets that are in no other."""
        return [bucket for bucket in self.buckets if BASE + bucket not in self.holder]

    def is_dead(self, drive):
        """Whether a drive gets nothing: its acceptance or its weight is 0."""
        _, weight, acceptance = self.drives[drive].values
        return not weight or not acceptance


# ---- load's questions: each answers the faults that it finds, none where its answer is yes

def ask_bytes(given):
    data, faults = given.data, []
    if not data:
        return [Fault((), "the map is empty")]
    if data[:2] in (b"\xff\xfe", b"\xfe\xff"):
        return [Fault((1,), "the file is UTF-16 text (its first bytes are ff and fe): save it as plain ASCII")]
    if len(data) > MOST_BYTES:
        faults.append(Fault((), f"the map has {len(data)} bytes, and {MOST_BYTES} are the most"))
    start = 0
    if data.startswith(b"\xef\xbb\xbf"):
        start = 3
        faults.append(Fault((1,), "the file begins with a byte order mark (BOM, bytes ef bb bf): save it without one"))
    first, counts = {}, collections.Counter()
    for found in re.finditer(rb"[^0-9a-f\n]", data[start:]):
        sort = "capitals" if found[0] in b"ABCDEF" else found[0]
        counts[sort] += 1
        first.setdefault(sort, start + found.start())
    for sort, where in first.items():
        line, column = 1 + data.count(b"\n", 0, where), where - data.rfind(b"\n", 0, where)
        among = "" if counts[sort] == 1 else f", the first of {counts[sort]} {'capitals ' if sort == 'capitals' else ''}in the map"
        faults.append(Fault((line,), f"column {column}: {named_byte(data[where])}{among}"))
    only_13 = b"\r" in data and b"\n" not in data
    if not data.endswith(b"\n") and not only_13:
        last = given.lines[-1]
        kind = last[:2].decode("latin-1")
        if kind == "05" and len(last) == LENGTHS["05"]:
            what = "the newline (byte 10) behind the last line is missing: add it"
        else:
            known = f", and one of kind {kind} has {LENGTHS[kind]}" if kind in LENGTHS else ""
            what = f"the map is cut off: its last line has no newline (byte 10). The line has {counted(len(last), 'byte')}{known}"
        faults.append(Fault((len(given.lines),), what))
    return faults


def ask_lengths(given):
    faults, ended = [], False
    for at, line in enumerate(given.lines, 1):
        kind, length = line[:2].decode("ascii"), len(line)
        if not line:
            what = "an empty line: take it out"
        elif kind in ("21", "22") and length == 14:
            what = "this is an edit, and a map has none. " + ("The call from C takes the map alone, through its 05 line" if ended else
                                                              "Edits come behind the 05 line, which is missing before it")
        elif kind not in LENGTHS:
            what = f"{kind} is no kind of line: a map has kinds 00 to 05"
        elif length == LENGTHS[kind]:
            ended = ended or kind == "05"
            continue
        else:
            what = f"a line of kind {kind} has {LENGTHS[kind]} digits, and this one has {length}"
            if kind == "02" and length in (8, 10):
                lacking = "two digits of its kind (01 makes it the straw that it was) and " if length == 8 else ""
                change = "4" if length == 8 else "6"
                what += f". It is the form before change {change}: behind it stand {lacking}eight digits of its weight, the sum of its children's"
        faults.append(Fault((at,), what))
    return faults


def ask_order(given):
    kinds, faults = [record.kind for record in given.records], []
    if kinds[0] != "00":
        faults.append(Fault((1,), "the first line is not the 00 line, which tells the number of groups"))
    for at, (before, kind) in enumerate(zip(kinds, kinds[1:]), 2):
        if before == "05":
            faults.append(Fault((at,), "a line behind the 05 line, which is the last of a map"))
        elif kind == "00":
            faults.append(Fault((at,), "a 00 line that is not the first line"))
        elif kind < before:
            faults.append(Fault((at,), f"a {kind} line behind a {before} line: the 01 lines come first, then the 02, 03 and 04 lines"))
    if "05" not in kinds:
        faults.append(Fault((len(kinds),), f"the 05 line is missing, which ends the map: 05{len(kinds):04x}; or the map is cut off behind this line"))
    return faults


def ask_count(given):
    last = given.records[-1]
    told, before = last.values[0], len(given.records) - 1
    if told == before:
        return []
    change = f"{counted(abs(told - before), 'line was', 'lines were')} {'lost' if told > before else 'added'}"
    return [Fault((last.at,), f"it tells {counted(told, 'line')} before it, and there are {before}: {change}, or it should be 05{before:04x}")]


def range_of(record):
    """The least and the greatest value of each field of a line."""
    if record.kind == "00":
        return ((1, 65536),)
    if record.kind == "01":
        return ((0, MOST_DRIVES - 1), (0, 65535), (0, ALWAYS))
    if record.kind == "02":
        return ((0, MOST_BUCKETS - 1), (1, 255), (1, 2), (0, 2 ** 32 - 1))
    if record.kind == "03":
        return ((0, MOST_BUCKETS - 1), (0, BASE + MOST_BUCKETS - 1))
    if record.kind == "05":
        return ((0, 65535),)
    step = (1, 5)
    if record.values[0] == TAKE:
        return (step, (0, 0), (0, 0), (0, MOST_BUCKETS - 1))
    if record.values[0] in SELECTS:
        return (step, (1, 16), (0, 254), (0, 0))
    return (step, (0, 0), (0, 0), (0, 0)) if record.values[0] == EMIT else (step,)


def ask_ranges(given):
    faults = []
    for record in given.records:
        for (name, digits), value, (least, greatest) in zip(FIELDS[record.kind], record.values, range_of(record)):
            spelled = f"the field {name} is {value} ({value:0{digits}x})"
            if not least <= value <= greatest:
                wanted = f"{least} to {greatest}" if least < greatest else f"{least}: the step does not use it"
                if name == "step":
                    wanted = "1 take, 2 select first-n, 3 select independent, 4 emit or 5 select through"
                elif name == "kind":
                    wanted = "1 (01), a straw bucket, or 2 (02), a tree"
                elif name == "child":
                    wanted = f"a drive, below {MOST_DRIVES}, or {BASE} plus a bucket's number, which is below {MOST_BUCKETS}"
                faults.append(Fault((record.at,), f"{spelled}, and is to be {wanted}"))
            elif name == "child" and MOST_DRIVES <= value < BASE:
                faults.append(Fault((record.at,), f"{spelled}: a drive is below {MOST_DRIVES}, and a bucket is {BASE} plus its number"))
    return faults


def ask_rising(given):
    faults = []
    for kind, fields, thing in (("01", 1, "drive"), ("02", 1, "bucket"), ("03", 2, "pair of bucket and child")):
        records = given.of(kind)
        for before, record in zip(records, records[1:]):
            if record.values[:fields] <= before.values[:fields]:
                what = "is there twice" if record.values[:fields] == before.values[:fields] else "comes behind a higher one"
                faults.append(Fault((before.at, record.at), f"the {thing} of line {record.at} {what}"))
    return faults


def ask_present(given):
    faults = []
    for record in given.of("03"):
        bucket, child = record.values
        if bucket not in given.buckets:
            faults.append(Fault((record.at,), f"bucket {bucket:04x} has no 02 line"))
        if child not in given.drives if child < BASE else child - BASE not in given.buckets:
            faults.append(Fault((record.at,), f"the child, {item_words(child)}, has no {'01' if child < BASE else '02'} line"))
    for record in given.of("04"):
        if record.values[0] == TAKE and record.values[3] not in given.buckets:
            faults.append(Fault((record.at,), f"the bucket taken, {record.values[3]:04x}, has no 02 line"))
    return faults


def ask_twice(given):
    faults, first = [], {}
    for record in given.of("03"):
        bucket, child = record.values
        before = first.setdefault(child, record)
        if before is not record:
            what = f"{item_words(child)} is a child of bucket {before.values[0]:04x} and of bucket {bucket:04x}"
            faults.append(Fault((before.at, record.at), what))
    return faults


def ask_types(given):
    faults = []
    for record in given.of("03"):
        bucket, child = record.values
        own, above = given.type_of(child), given.type_of(BASE + bucket)
        if own >= above:
            what = f"{item_words(child)} is of type {own}, which is not below {above}, the type of bucket {bucket:04x} that it is in"
            faults.append(Fault((record.at, given.buckets[child - BASE].at, given.buckets[bucket].at), what))
    return faults


def ask_filled(given):
    return [Fault((given.buckets[bucket].at,), f"bucket {bucket:04x} has no 03 line, so no child")
            for bucket, children in given.children.items() if not children]


def ask_children(given):
    return [Fault((given.buckets[bucket].at,), f"bucket {bucket:04x} has {len(children)} children, and {MOST_CHILDREN} are the most")
            for bucket, children in given.children.items() if len(children) > MOST_CHILDREN]


def ask_rule(given):
    steps, faults = given.of("04"), []
    if not steps:
        return [Fault((), "the rule is missing: there is no 04 line")]
    if len(steps) > MOST_STEPS:
        faults.append(Fault((steps[MOST_STEPS].at,), f"the rule has {len(steps)} steps, and {MOST_STEPS} are the most"))
    taken = last = None  # the take of the block under way, and the last step of it
    for record in steps:
        step, _, type_, bucket = record.values
        fault = None
        if step == TAKE:
            if taken:
                fault = f"a take, and the block that begins at line {taken.at} has no emit yet"
            taken, above = record, given.type_of(BASE + bucket)
        elif not taken:
            fault = f"{'an emit' if step == EMIT else 'a select'} without a take before it"
        elif step == EMIT:
            if last is taken:
                fault = f"an emit, and the block that begins at line {taken.at} has no select"
            elif last.values[0] != THROUGH and last.values[2]:
                fault = f"the block ends at type {last.values[2]} (line {last.at}); its last select is to be of type 0, the drives, or a step 5"
            taken = None
        elif last.values[0] == THROUGH:
            fault = "a select behind a step 5, which is the last select of its block"
        elif type_ >= above:
            fault = f"type {type_} is not below {above}, the type of the {'bucket taken' if last is taken else 'select before'}"
        else:
            above = type_
        last = record
        if fault:
            faults.append(Fault((record.at,), fault))
    if taken:
        faults.append(Fault((taken.at,), "the block that begins here has no emit"))
    return faults


def ask_through(given):
    return [Fault((record.at,), "a step 5 of type 0: it goes through buckets, whose types are 1 and above")
            for record in given.of("04") if record.values[0] == THROUGH and not record.values[2]]


def ask_width(given):
    faults = []
    for block, places in zip(given.blocks, given.widths):
        if places > MOST_IN_BLOCK:
            counts = " x ".join(str(select.values[1]) for select in block.selects)
            what = f"the block has {counts} = {places} places, and {MOST_IN_BLOCK} are the most"
            faults.append(Fault(tuple(select.at for select in block.selects), what))
    if given.width > MOST_IN_ALL:
        faults.append(Fault((), f"the rule has {given.width} places in all, and {MOST_IN_ALL} are the most"))
    return faults


def ask_weights(given):
    faults = []
    for bucket, record in given.buckets.items():
        written, true = record.values[3], given.weights[BASE + bucket]
        if written != true:
            what = f"bucket {bucket:04x} is written with {written}, and its children weigh {true}: the line should be {record.text[:10]}{true:08x}"
            faults.append(Fault((record.at,), what))
    return faults


# 13, the weight of all drives, is left out: it is never answered no, since 1,024 drives of 65,535 weigh no more
ASKS = {1: ask_bytes, 2: ask_lengths, 3: ask_order, 4: ask_count, 5: ask_ranges, 6: ask_rising, 7: ask_present, 8: ask_twice, 9: ask_types,
        10: ask_children, 11: ask_rule, 12: ask_width, 21: ask_through, 22: ask_filled, 23: ask_weights}


def refusal_of(given):
    """The first question answered no: its number, itself in words, and the faults; or 0 and none."""
    for number, question in QUESTIONS.items():
        faults = ASKS[number](given) if number in ASKS else []
        if faults:
            return number, question, faults
    return 0, None, []


# ---- files

def reason(error):
    """Why the system, or Python for a name that no file can have, gave up."""
    return getattr(error, "strerror", None) or str(error)


def read_standard_input():
    if sys.stdin is None:
        raise Trouble("standard input", None, "it is closed")
    try:
        return sys.stdin.buffer.read()
    except OSError as error:
        raise Trouble("standard input", None, f"cannot read it: {reason(error)}") from None


def read_file(name):
    try:
        with open(name, "rb") as file:
            return file.read()
    except (OSError, ValueError) as error:
        raise Trouble(name, None, f"cannot read it: {reason(error)}") from None


def map_bytes(name):
    """A map's name for people, and what its file holds."""
    return ("standard input", read_standard_input()) if name == "-" else (name, read_file(name))


def good_map(name):
    """A map that loads, cut as the programs cut it."""
    title, data = map_bytes(name)
    given = Map(through_05(data)[0])
    number, _, faults = refusal_of(given)
    if number:
        line = faults[0].lines[0] if faults[0].lines else None
        raise Trouble(title, line, f"the map is refused with {told_number(number)}: {faults[0].what}. `show.py why` tells more")
    return given


NAME_LINE = re.compile(r"(drive|bucket|type)\s+([0-9a-fA-F]+)\s*=\s*(.*\S)")
NAME_DIGITS = {"drive": (4,), "bucket": (4,), "type": (1, 2)}


def read_names(file, given):
    """The names by kind and number. With a map, each number has to be one of its own."""
    try:
        text = read_file(file).decode("utf-8-sig")
    except UnicodeDecodeError as error:
        raise Trouble(file, 1 + error.object.count(b"\n", 0, error.start), "the line is not UTF-8 text") from None
    names, first = {}, {}
    for at, line in enumerate(text.split("\n"), 1):
        line = line.strip()
        if not line or line.startswith("#"):
            continue
        found = NAME_LINE.fullmatch(line)
        if not found:
            raise Trouble(file, at, "a line is `drive 0020 = NAME`, `bucket 0012 = NAME` or `type 1 = NAME`, or begins with #")
        kind, digits, name = found.groups()
        if len(digits) not in NAME_DIGITS[kind]:
            wanted = "four digits" if kind != "type" else "one or two digits"
            raise Trouble(file, at, f"the number of a {kind} is {wanted}, in hexadecimal as in the frames")
        bad = next((letter for letter in name if not letter.isprintable()), None)
        if bad:
            raise Trouble(file, at, f"the name has a character that cannot be shown, U+{ord(bad):04X}")
        key = kind, int(digits, 16)
        if key in names:
            raise Trouble(file, at, f"{kind} {digits} has a name already, by line {first[key]}")
        if given:
            known = {"drive": given.drives, "bucket": given.buckets, "type": {0} | {record.values[1] for record in given.buckets.values()}}
            if key[1] not in known[kind]:
                raise Trouble(file, at, f"the map has no {kind} {digits}")
        names[key], first[key] = name, at
    return names


class Labels:
    """What drives and buckets are called. Their numbers always stand by."""

    def __init__(self, names, given):
        self.names, self.given = names, given
        self.places = {}

    def type_name(self, type_):
        return self.names.get(("type", type_))

    def item(self, item):
        kind, number = ("drive", item) if item < BASE else ("bucket", item - BASE)
        if (kind, number) in self.names:
            return f"{self.names[kind, number]} ({number:04x})"
        type_ = 0 if kind == "drive" else self.given.type_of(item)
        return f"{self.type_name(type_) or kind} {number:04x}"

    def short(self, bucket):
        """A bucket's name, as part of a path; its number where it has none."""
        name, kind = self.names.get(("bucket", bucket)), self.type_name(self.given.type_of(BASE + bucket))
        return name or (f"{kind} {bucket:04x}" if kind else f"{bucket:04x}")

    def place(self, drive):
        """A drive, and with a map the buckets above it; or a hole."""
        if drive not in self.places:
            words = "a hole" if drive == HOLE else self.item(drive)
            if self.given and drive != HOLE:
                path = "/".join(map(self.short, self.given.above(drive)))
                words += f" in {path}" if path else " in no bucket"
            self.places[drive] = words
        return self.places[drive]


# ---- frames as the programs print them

Move = collections.namedtuple("Move", "group place old new cause")


def frame_trouble(at, line, what):
    return Trouble("standard input", at, f"{what}: {plain(line)}")


def check_drives(at, line, drives, given):
    """That each is a hole or a drive, with a map one of its own."""
    for drive in drives:
        if drive != HOLE and (drive not in given.drives if given else drive >= MOST_DRIVES):
            raise frame_trouble(at, line, f"{drive:04x} is no drive{' of the map' if given else ''} and not ffff, a hole")


def check_group(at, line, group, given):
    if given and group >= given.groups:
        raise frame_trouble(at, line, f"group {group} is not below {given.groups}, the map's number of groups")


def row_of(at, line, given, width):
    """A row's group and places. All rows are of one width, the map's where there is one."""
    places, odd = divmod(len(line) - 10, 4)
    if odd or not 1 <= places <= MOST_IN_ALL:
        raise frame_trouble(at, line, f"a row is 11, eight digits and four for each of 1 to {MOST_IN_ALL} places")
    if width and places != width:
        others = "the lists of the map" if given else "those before"
        raise frame_trouble(at, line, f"the row has {counted(places, 'place')}, and {others} have {width}")
    group, *row = struct.unpack(f">I{places}H", bytes.fromhex(line[2:].decode("ascii")))
    check_group(at, line, group, given)
    check_drives(at, line, row, given)
    return group, row


def move_of(at, line, given):
    if len(line) != 22:
        raise frame_trouble(at, line, "a move has 22 digits: 13, group (8), place (2), old (4), new (4), cause (2)")
    move = Move(*struct.unpack(">IBHHB", bytes.fromhex(line[2:].decode("ascii"))))
    check_group(at, line, move.group, given)
    check_drives(at, line, (move.old, move.new), given)
    width = given.width if given else MOST_IN_ALL
    if not 1 <= move.place <= width:
        raise frame_trouble(at, line, f"place {move.place} is none of 1 to {width}")
    if move.old == move.new:
        raise frame_trouble(at, line, "a move from a place to itself")
    if move.cause not in CAUSES:
        raise frame_trouble(at, line, f"{move.cause:02x} is no cause: these are 01, 02, 03 and 04")
    return move


def frames_of(data, given):
    """What the programs print: (line number, kind, what it tells), kind 11 a row, 13 a move and 1f a refusal. The lines of maps, edits, stores and
    returns, which may stand between, and empty lines are passed over."""
    width = given.width if given else None
    for at, line in enumerate(lines_of(data), 1):
        odd = re.search(rb"[^0-9a-f]", line)
        if odd:
            raise Trouble("standard input", at, f"column {odd.start() + 1}: {named_byte(odd[0][0])}, in a line that is to be lower-case digits")
        kind = line[:2]
        if kind == b"11":
            group, row = row_of(at, line, given, width)
            width = len(row)
            yield at, "11", (group, row)
        elif kind == b"13":
            yield at, "13", move_of(at, line, given)
        elif kind == b"1f":
            if len(line) != 4 or int(line[2:], 16) not in REFUSALS:
                raise frame_trouble(at, line, "a refusal is 1f and the two digits of its number")
            yield at, "1f", int(line[2:], 16)
        elif line and kind not in (b"00", b"01", b"02", b"03", b"04", b"05", b"21", b"22", b"23", b"24"):
            raise frame_trouble(at, line, "the line is none that the programs print (11 a row, 13 a move, 1f a refusal)")


def refused_words(number):
    wrong, mend = REFUSALS[number]
    return f"refused with {told_number(number)}: {wrong}; {mend}"


# ---- the commands: each answers the lines to print

def rule_words(given, labels):
    number = 0
    for block, places in zip(given.blocks, given.widths):
        steps = [f"take {labels.item(BASE + block.bucket)}"]
        for select in block.selects:
            step, count, type_, _ = select.values
            thing = labels.type_name(type_) or ("" if type_ else "drive")
            wanted = f"{count} of type {type_}" + (f" ({thing})" if thing else "")
            steps.append(f"select through {wanted}, a drive beneath each" if step == THROUGH else f"select {wanted}, {SELECTS[step]}")
        steps.append(f"emit, which makes {counted(places, 'place')}")
        for words in steps:
            number += 1
            yield f"  {number}. {words}"


def accepts_words(acceptance):
    if acceptance == ALWAYS:
        return f"{acceptance}, always"
    return f"{acceptance}, {percent(acceptance, ALWAYS)}" if acceptance else "0, never (dead)"


def drive_row(given, labels, drive, depth, holder, root):
    _, weight, acceptance = given.drives[drive].values
    shares = [percent(weight, given.weights[BASE + above]) if above is not None else "-" for above in (holder, root)]
    return ["  " * depth + labels.item(drive), "0", "", str(weight), accepts_words(acceptance), *shares, "" if weight else "weight 0: never drawn"]


def tree_rows(given, labels, root):
    waiting = [(BASE + root, 0)]
    while waiting:
        item, depth = waiting.pop()
        holder = given.holder.get(item)
        if item < BASE:
            yield drive_row(given, labels, item, depth, holder, root)
            continue
        bucket = item - BASE
        weight, drives = given.weights[item], given.beneath(bucket)
        dead = sum(map(given.is_dead, drives))
        note = counted(len(drives), "drive")
        if dead:
            note = f"DEAD: none of its {note} takes anything" if dead == len(drives) else f"{note}, {dead} of them dead"
        share = "-" if holder is None else percent(weight, given.weights[BASE + holder])
        _, type_, kind, _ = given.buckets[bucket].values
        yield ["  " * depth + labels.item(item), str(type_), KINDS[kind], str(weight), "", share, percent(weight, given.weights[BASE + root]), note]
        waiting += [(child, depth + 1) for child in reversed(given.children[bucket])]


def tree(options):
    given = good_map(options.map)
    labels = Labels(names_of(options, given), given)
    cells = [["", "type", "kind", "weight", "accepts", "of its bucket", "of its tree", ""]]
    for root in given.roots:
        cells += tree_rows(given, labels, root)
    loose = [drive for drive in given.drives if drive not in given.holder]
    if loose:
        cells.append(["in no bucket, so never drawn:"] + [""] * 7)
        cells += [drive_row(given, labels, drive, 1, None, None) for drive in loose]
    yield from columns(cells, {1, 3, 5, 6})
    yield ""
    yield f"{counted(given.groups, 'group')}, each a list of {counted(given.width, 'place')}. The rule:"
    yield from rule_words(given, labels)


def moves(options):
    given = good_map(options.map)
    labels = Labels(names_of(options, given), given)
    causes, groups, refused = collections.Counter(), set(), 0
    for at, kind, told in frames_of(read_standard_input(), given):
        if kind == "13":
            causes[told.cause] += 1
            groups.add(told.group)
            yield (f"group {told.group} ({told.group:08x}), place {told.place}: from {labels.place(told.old)} to {labels.place(told.new)}; "
                   f"cause {told.cause:02x}, {CAUSES[told.cause][0]}")
        elif kind == "1f":
            refused += 1
            yield f"line {at}: {refused_words(told)}"
    by_cause = "".join(f", {causes[cause]} of cause {cause:02x}" for cause in sorted(causes))
    yield f"{counted(causes.total(), 'move')} in {counted(len(groups), 'group')}{by_cause}; {counted(refused, 'refusal')}"
    for cause in sorted(causes):
        yield f"  cause {cause:02x}: {CAUSES[cause][1]}"


def without_rows(refused):
    if refused:
        return Trouble("standard input", None, f"there are no rows: the map was {refused_words(refused)}")
    return Trouble("standard input", None, "there are no rows (lines that begin with 11) in it")


def rows(options):
    given = good_map(options.map) if options.map else None
    labels = Labels(names_of(options, given), given)
    count = refused = 0
    for at, kind, told in frames_of(read_standard_input(), given):
        if kind == "11":
            count += 1
            group, row = told
            yield f"group {group} ({group:08x}): " + "; ".join(f"{place}. {labels.place(drive)}" for place, drive in enumerate(row, 1))
        elif kind == "1f":
            refused = told
            if count:
                yield f"line {at}: {refused_words(told)}"
    if not count:
        raise without_rows(refused)


class Table:
    """The rows by group, with the moves behind them put in; a later row of a group stands for the earlier one."""

    def __init__(self, data, given):
        self.rows, self.moves, refused = {}, 0, 0
        for at, kind, told in frames_of(data, given):
            if kind == "11":
                group, row = told
                self.rows[group] = row
            elif kind == "13":
                self.moves += 1
                row = self.rows.get(told.group)
                if row is None or told.place > len(row):
                    raise Trouble("standard input", at, f"a move of group {told.group}, place {told.place}, and no row before it has this place")
                if row[told.place - 1] != told.old:
                    raise Trouble("standard input", at, f"a move from {told.old:04x}, and place {told.place} of group {told.group} holds "
                                                        f"{row[told.place - 1]:04x}")
                row[told.place - 1] = told.new
            else:
                refused = told
        if not self.rows:
            raise without_rows(refused)
        self.width = len(next(iter(self.rows.values())))
        by_place = list(zip(*self.rows.values()))
        self.holes = [column.count(HOLE) for column in by_place]
        self.with_holes = sum(HOLE in row for row in self.rows.values())
        self.held = collections.Counter()
        for column in by_place:
            self.held.update(column)
        del self.held[HOLE]

    def title(self):
        return f"{counted(len(self.rows), 'row')} of {counted(self.width, 'place')}, {counted(sum(self.holes), 'hole')}"


def expected_places(given, groups):
    """What each drive beneath a bucket taken would hold of so many rows, by its weight alone."""
    expected = collections.Counter()
    for block, places in zip(given.blocks, given.widths):
        weight = given.weights[BASE + block.bucket]
        for drive in given.beneath(block.bucket):
            expected[drive] += groups * places * given.weights[drive] / weight if weight else 0
    return expected


def summary(options):
    given = good_map(options.map) if options.map else None
    labels = Labels(names_of(options, given), given)
    table = Table(read_standard_input(), given)
    expected = expected_places(given, len(table.rows)) if given else None
    order = [drive for root in given.roots for drive in given.beneath(root) if drive in expected] if given else []
    order += sorted(set(table.held).difference(order))
    if options.svg:  # before the text, whose reader may go away
        write_file(options.svg, picture(table, order, expected, labels))
    yield table.title() + (f", {counted(table.moves, 'move')} put in" if table.moves else "")
    if given and len(table.rows) != given.groups:
        yield f"(the map has {counted(given.groups, 'group')}: not every one has a row here)"
    for place, holes in enumerate(table.holes, 1):
        yield f"  holes at place {place}: {holes}"
    yield f"rows with holes: {table.with_holes}"
    yield ""
    if given:
        cells = [["", "places", "by weight", "ratio", "weight", "accepts"]]
        for drive in order:
            _, weight, acceptance = given.drives[drive].values
            held, wanted = table.held[drive], expected[drive]
            part = f"{held / wanted:.2f}" if wanted else "-"
            cells.append([labels.item(drive), str(held), f"{wanted:.1f}", part, str(weight), accepts_words(acceptance)])
    else:
        cells = [["", "places", "of all held"]]
        cells += [[labels.item(drive), str(table.held[drive]), percent(table.held[drive], table.held.total())] for drive in order]
    yield from columns(cells, {1, 2, 3, 4})


def why(options):
    title, data = map_bytes(options.map)
    cut, rest = through_05(data)
    given = Map(data if options.whole else cut)
    number, question, faults = refusal_of(given)
    if number:
        yield f"{title} is refused with {told_number(number)}."
        yield f"The question answered no: {question}"
        for fault in faults[:MOST_TOLD]:
            for line in dict.fromkeys(fault.lines):
                yield f"line {line}: {plain(given.lines[line - 1])}"
            yield f"    {fault.what}"
        if len(faults) > MOST_TOLD:
            yield f"and {counted(len(faults) - MOST_TOLD, 'fault')} more of this question"
        yield f"What to do: {REFUSALS[number][1]}."
    else:
        yield (f"{title} loads: {counted(given.groups, 'group')}, lists of {counted(given.width, 'place')}, {counted(len(given.drives), 'drive')}, "
               f"{counted(len(given.buckets), 'bucket')}, a rule of {counted(len(given.of('04')), 'step')}.")
        places = given.groups * given.width
        if places > TABLE_PLACES:
            yield f"Its table has {places} places: program fill has room for {TABLE_PLACES}, and refuses it with {told_number(16)}."
        if any(select.values[0] == FIRST_N for block in given.blocks for select in block.selects):
            yield f"Its rule has a first-n select: every edit is refused with {told_number(17)}."
    if rest and not options.whole:
        lines = len(lines_of(rest))
        whole = told_number(refusal_of(Map(data))[0])
        follow = "1 line follows the 05 line: program fill takes it as an edit" if lines == 1 else (
            f"{lines} lines follow the 05 line: program fill takes them as edits")
        yield f"{follow}. The call from C, which takes the whole file as the map, refuses it with {whole}; --whole tells why."


# ---- the picture

PANEL_DRIVES, PLOT_WIDE, PLOT_HIGH = 128, 1100, 130
LEFT, TOP, BELOW, BAND = 70, 96, 62, 16
HELD_COLOUR, EXPECTED_COLOUR, HOLE_COLOUR = "#4878a8", "#d9541e", "#a83232"


def step_of(most):
    """A round distance between the marks of an axis that reaches to `most`."""
    step = 1
    while most / step > 5:
        step = step * 5 // 2 if str(step)[0] == "2" else step * 2
    return step


def words_at(x, y, words, size=11, anchor="start", more=""):
    return f'<text x="{x:.1f}" y="{y:.1f}" font-size="{size}" text-anchor="{anchor}"{more}>{escape(words)}</text>'


def box(x, y, wide, high, colour, words=None):
    shape = f'<rect x="{x:.2f}" y="{y:.2f}" width="{wide:.2f}" height="{high:.2f}" fill="{colour}"'
    return f"{shape}><title>{escape(words)}</title></rect>" if words else f"{shape}/>"


def axis(top, wide, most, words):
    """The marks of an axis of places, and the height of a value in the picture."""
    step = step_of(most)
    high = step * math.ceil(most / step)

    def level(value):
        return top + PLOT_HIGH * (1 - value / high)

    parts = []
    for mark in range(0, high + 1, step):
        parts.append(f'<line x1="{LEFT}" x2="{LEFT + wide:.1f}" y1="{level(mark):.1f}" y2="{level(mark):.1f}" stroke="#cccccc"/>')
        parts.append(words_at(LEFT - 6, level(mark) + 4, str(mark), anchor="end"))
    middle = top + PLOT_HIGH / 2
    parts.append(words_at(20, middle, words, anchor="middle", more=f' transform="rotate(-90 20 {middle:.1f})"'))
    return parts, level


def bands(order, labels, top, slot):
    """A light ground behind the drives of every other bucket, and the bucket's name where it has room."""
    parts, start, odd = [], 0, False
    while start < len(order):
        bucket = labels.given.holder.get(order[start])
        end = start
        while end < len(order) and labels.given.holder.get(order[end]) == bucket:
            end += 1
        x, wide, words = LEFT + start * slot, (end - start) * slot, "" if bucket is None else labels.short(bucket)
        parts.append(box(x, top - BAND, wide, PLOT_HIGH + BAND, "#eef2f6" if odd else "#f8f8f8"))
        if 6 * len(words) < wide:
            parts.append(words_at(x + wide / 2, top - 4, words, size=10, anchor="middle"))
        start, odd = end, not odd
    return parts


def panel(table, order, expected, labels, top, most, slot):
    """The bars of one line of drives, side by side."""
    parts = bands(order, labels, top, slot) if expected is not None else []
    lines, level = axis(top, slot * len(order), most, "places")
    parts += lines
    for at, drive in enumerate(order):
        x, held = LEFT + at * slot, table.held[drive]
        words = f"{labels.item(drive)}: {counted(held, 'place')}"
        if expected is not None:
            words += f", {expected[drive]:.1f} by weight"
        parts.append(box(x + 0.15 * slot, level(held), 0.7 * slot, level(0) - level(held), HELD_COLOUR, words))
        if expected is not None:
            parts.append(box(x + 0.02 * slot, level(expected[drive]) - 1, 0.96 * slot, 2, EXPECTED_COLOUR))
        centre, under = x + slot / 2 + 3, level(0) + 5
        parts.append(words_at(centre, under, f"{drive:04x}", size=8, anchor="end", more=f' transform="rotate(-90 {centre:.1f} {under:.1f})"'))
    return parts


def holes_panel(table, top):
    parts, level = axis(top, 30 * table.width, max(table.holes), "holes")
    for place, holes in enumerate(table.holes, 1):
        x = LEFT + 30 * (place - 1)
        parts.append(box(x + 5, level(holes), 20, level(0) - level(holes), HOLE_COLOUR, f"place {place}: {counted(holes, 'hole')}"))
        parts.append(words_at(x + 15, level(0) + 14, str(place), anchor="middle"))
    parts.append(words_at(LEFT, level(0) + 32, "place"))
    return parts


def picture(table, order, expected, labels):
    """The places by drive, in lines of at most 128 drives, and the holes by place, as SVG."""
    most = max([1, *table.held.values(), *(expected or {}).values()])
    slot = min(40, PLOT_WIDE / min(PANEL_DRIVES, max(1, len(order))))
    parts = [words_at(LEFT, 28, f"Places by drive: {table.title()}", size=18)]
    legend = [(HELD_COLOUR, "places that the drive holds")]
    if expected is not None:
        legend.append((EXPECTED_COLOUR, "places by its weight alone, among the drives beneath the buckets that the rule takes"))
    legend.append((HOLE_COLOUR, "holes"))
    x = LEFT
    for colour, words in legend:
        parts += [box(x, 42, 12, 12, colour), words_at(x + 17, 52, words)]
        x += 45 + 6.2 * len(words)
    top = TOP
    for start in range(0, len(order), PANEL_DRIVES):
        parts += panel(table, order[start:start + PANEL_DRIVES], expected, labels, top, most, slot)
        top += PLOT_HIGH + BELOW
    order_words = "" if expected is None else ", in the order of the tree; above: its bucket"
    parts.append(words_at(LEFT, top - 22, f"drive, in hexadecimal{order_words}"))
    top += 24
    rows_with = f"{counted(table.with_holes, 'row')} with holes" if table.with_holes else "none"
    parts.append(words_at(LEFT, top - 12, f"Holes by place: {rows_with}", size=14))
    if table.with_holes:
        parts += holes_panel(table, top)
        top += PLOT_HIGH + 40
    wide, high = LEFT + PLOT_WIDE + 30, top + 10
    return "\n".join([f'<svg xmlns="http://www.w3.org/2000/svg" width="{wide}" height="{high}" viewBox="0 0 {wide} {high}" '
                      'font-family="sans-serif" fill="#222222">', box(0, 0, wide, high, "#ffffff"), *parts, "</svg>\n"])


def write_file(name, words):
    try:
        with open(name, "w", encoding="utf-8") as file:
            file.write(words)
    except (OSError, ValueError) as error:
        raise Trouble(name, None, f"cannot write it: {reason(error)}") from None


# ---- the command line

def names_of(options, given):
    return read_names(options.names, given) if options.names else {}


NAMES_HELP = """A names file (--names FILE) is UTF-8 text, a name a line; a line that begins with # is a comment:

  drive 0020 = rack2-slot0
  bucket 0012 = Zürich cabinet 2
  type 1 = cabinet

Numbers are in hexadecimal as in the frames, four digits for a drive or a bucket and one or two for a type; type 0 is the drives.
The map has to have each of them.

Exit status: 0, or 1 where the input is bad or the map refused (of why: only where it cannot be read), or 2 for a wrong command line."""

COMMANDS = (
    (tree, "the buckets and drives, with weights, acceptances and shares, and the rule in words",
     "Shows the tree of a map, a line for each bucket and drive: type, kind, weight, the acceptance of a drive (65536 is always, 0 never), and which "
     "part it is of the weight of its bucket and of its tree. A dead drive has acceptance or weight 0; a bucket of dead drives alone is marked DEAD. "
     "The rule follows in words."),
    (moves, "the moves on standard input in words",
     "Tells what the programs print, on standard input, in words: a line for each move, with the group, the place, the drive that it leaves and the "
     "one that it goes to, each with the buckets above it, and why; and one for each refusal. Rows are passed over. MAP is the map before or after "
     "the edits and returns: none of them changes the tree."),
    (rows, "the rows on standard input in words",
     "Tells the rows that program fill prints, on standard input, in words: a line for each group, with its drives by place; with MAP each drive has "
     "the buckets above it. Moves are passed over: the rows are told as they stand."),
    (summary, "holes by place, and places by drive against its weight",
     "Counts the rows on standard input: holes by place, rows with holes, places by drive. With MAP each count stands beside what the drive's weight "
     "alone gives it, among the drives beneath the buckets that the rule takes; neither acceptances nor the sites and cabinets of the rule are "
     "counted in there. Moves behind the rows are put in first, so that the table afterwards is counted. A second row of a group stands for its "
     "first."),
    (why, "why a map is refused: the question, the lines at fault, what to do",
     "Puts load's questions to a map in the engine's order and tells the first that is answered no: its number, as the programs print it too, the "
     "lines at fault, what is expected there and what to do. As in the programs, the map is the file through its first line that begins with 05; "
     "lines behind it are told of."),
)


def command_line():
    shape = argparse.RawDescriptionHelpFormatter
    parser = argparse.ArgumentParser(prog="show.py", description="Shows maps, and what the programs print, to people.", epilog=NAMES_HELP,
                                     formatter_class=shape)
    parser.add_argument("--names", metavar="FILE", help="names of drives, buckets and types, for all commands but why")
    choices = parser.add_subparsers(title="commands", metavar="COMMAND", required=True)
    for run, short, long in COMMANDS:
        name = run.__name__
        command = choices.add_parser(name, help=short, description=long)
        command.set_defaults(run=run)
        if run in (rows, summary):
            command.add_argument("map", metavar="MAP", nargs="?", help="the map's file")
        else:
            command.add_argument("map", metavar="MAP", help="the map's file" + (", or - for standard input" if run in (tree, why) else ""))
        if run is not why:
            command.add_argument("--names", metavar="FILE", default=argparse.SUPPRESS, help="names of drives, buckets and types (show.py --help)")
        if run is summary:
            command.add_argument("--svg", metavar="FILE", help="draws the summary too, as SVG")
        if run is why:
            command.add_argument("--whole", action="store_true",
                                 help="puts the questions to the whole file, lines behind the 05 line too, as the call from C does")
    options = parser.parse_args()
    if options.map == "-" and options.run not in (tree, why):
        parser.error("the map cannot come from standard input, where the frames come from")
    return options


def say(words):
    if sys.stderr is not None:
        print(f"show.py: {words}", file=sys.stderr)


def print_lines(lines):
    """Prints lines, many at once. What comes before bad input is printed too."""
    waiting = []

    def flush():
        sys.stdout.write("".join(line + "\n" for line in waiting))
        waiting.clear()

    try:
        for line in lines:
            waiting.append(line)
            if len(waiting) == 1000:
                flush()
    finally:
        flush()


def main():
    if sys.stdout is None:
        say("standard output is closed")
        return 1
    sys.stdout.reconfigure(encoding="utf-8", errors="backslashreplace")  # as names files are, whatever the language of the terminal
    try:
        try:
            options = command_line()
            print_lines(options.run(options))
            status = 0
        except Trouble as trouble:
            say(trouble)
            status = 1
        except SystemExit as end:
            status = end.code
        sys.stdout.flush()
    except OSError as error:
        say(f"cannot write standard output: {reason(error)}")
        os.dup2(os.open(os.devnull, os.O_WRONLY), 1)  # or python would try to write the rest once more
        status = 1
    except KeyboardInterrupt:
        status = 130
    return status


if __name__ == "__main__":
    if hasattr(signal, "SIGPIPE"):
        signal.signal(signal.SIGPIPE, signal.SIG_DFL)  # a reader that goes away ends the program, as usual
    sys.exit(main())
