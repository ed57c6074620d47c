"""Named states (document 02, change 8): the words that they are lent in, calls of store and return, and what they answer.

`crush`, `calls`, `gen` and `reference` are modules of the CRUSH by another hand that a tool compares with: the last is its program `fill`. A state is
(name, {drive: (weight, acceptance)}). In words: how many states there are, how many drives each of them has, then of each state its name and of each
drive number, weight and acceptance."""
import random

MOST = 8
WORD = 2 ** 32


def size(drives):
    """How many words a state of so many drives has."""
    return 1 + 3 * drives


def words(states, beyond):
    """States in words, over the front of others."""
    out = [len(states), len(states[0][1]) if states else 0]
    for name, values in states:
        out.append(name)
        for drive in sorted(values):
            out += (drive, *values[drive])
    return out + beyond[len(out):]


def space(rng, drives):
    """Words lent that hold nothing yet: whatever they are. One drive more has room in each state."""
    return [rng.choice((0, 1, 7, 65535, WORD - 1)) for _ in range(2 + MOST * size(drives + 1))]


def read(mp, lent):
    """The states that words spell; None where there are too many, or one is not of the map's drives."""
    count, drives = lent[:2]
    if count > MOST or count and drives != len(mp.devices):
        return None
    states, at = [], 2
    for _ in range(count):
        name, *rest = lent[at:at + size(drives)]
        if rest[0::3] != sorted(mp.devices):
            return None
        states.append((name, dict(zip(rest[0::3], zip(rest[1::3], rest[2::3])))))
        at += size(drives)
    return states


def map_with(crush, level, frames, lent):
    """The map with its states, or None where question 14 is answered no."""
    mp = crush.load(frames, level)
    if isinstance(mp, int):
        return None
    states = read(mp, lent)
    if states is None:
        return None
    mp = mp.with_states(states)
    return mp if crush.map_is_whole(mp) else None


def load(crush, level, frames, lent):
    """The number, the groups, the width, and the words after the call."""
    mp = crush.load(frames, level)
    if isinstance(mp, int):
        return mp, 0, 0, lent
    return 0, mp.G, mp.W, words([], lent)


def store(crush, calls, level, frames, lent, name):
    """The number, and the words after the call."""
    mp = map_with(crush, level, frames, lent)
    if mp is None:
        return 14, lent
    number, after = calls.store(mp, name)
    return number, lent if number else words(after.states, lent)


def back(crush, calls, level, frames, table, lent, name, room):
    """What a return gives: the number, the moves, the frames, the table and the bytes of the moves."""
    mp = map_with(crush, level, frames, lent)
    if mp is None:
        return 14, 0, frames, table, b""
    res = calls.return_to(mp, table, name, room)
    if res.number:
        return res.number, 0, frames, table, b""
    assert all(move[4] == "04" for move in res.moves) and res.map.states == mp.states
    return 0, len(res.moves), crush.map_bytes(res.map), res.table, res.bytes()


# ---- states of a map

def changed(rng, mp, how):
    """The map's values with so many drives altered."""
    values = dict(mp.devices)
    for drive in rng.sample(sorted(values), min(len(values), how)):
        w, a = values[drive]
        if rng.random() < 0.5:
            w = rng.choice((0, 1, w * 2 % 65536, 65535, rng.randrange(65536)))
        else:
            a = rng.choice((0, 65536, 65535, rng.randrange(65537)))
        values[drive] = (w, a)
    return values


def named(rng, count):
    return rng.sample((0, 1, 2, 255, 256, 65534, 65535) + tuple(rng.sample(range(3, 65000), 4)), count)


def some(rng, mp, count):
    return [(name, changed(rng, mp, rng.choice((0, 1, 1, 2, 3)))) for name in named(rng, count)]


# ---- words that question 14 is answered no of, or yes: what is told of them, and the words

def bad_words(rng, mp, states, lent):
    """Words that differ from good ones in one word, or are of another map's states."""
    drives, n = sorted(mp.devices), len(mp.devices)
    good = words(states, lent)
    absent = next(number for number in rng.sample(range(1024), n + 1) if number not in mp.devices) if n < 1024 else 1024

    def put(at, value):
        return good[:at] + [value] + good[at + 1:]

    at = 2 + rng.randrange(len(states)) * size(n)
    drive = at + 1 + 3 * rng.randrange(n)
    yield "nine states", put(0, 9)
    yield "a number of states that is no count", put(0, rng.choice((10, 65536, WORD - 1)))
    yield "a name of 17 bits", put(at, rng.choice((65536, 65536 + good[at], WORD - 1)))
    yield "a weight of 65,536", put(drive + 1, 65536)
    yield "an acceptance of 65,537", put(drive + 2, 65537)
    yield "a drive that is not the map's", put(drive, absent)
    yield "a number that is no drive's", put(drive, rng.choice((1024, 65535, good[drive] + 65536, WORD - 1)))
    yield "no drives", put(1, 0)
    yield "a drive too few", put(1, n - 1)
    yield "a drive too many", put(1, n + 1)
    yield "as many drives as have no room", put(1, 10000)
    yield "drives without end", put(1, WORD - 1)
    yield "nine states of drives without end", [9, WORD - 1] + good[2:]
    # another map's, with the same numbers in front
    yield "states of a map with fewer drives", words(
        [(name, {d: values[d] for d in drives[:-1]}) for name, values in states], lent) if n > 1 else put(1, 0)
    last = next((number for number in (drives[-1] + 1, 1023) if number <= 1023 and number not in mp.devices), 1024)
    yield "states of a map with more drives", words([(name, {**values, last: (1, 65536)}) for name, values in states], lent)
    yield "states of a map with one drive more ahead", words(
        [(name, {**values, min(set(range(1025)) - set(drives)): (1, 65536)}) for name, values in states], lent)
    if len(states) > 1:
        yield "a name twice", put(2 + (len(states) - 1) * size(n), good[2])
    if n > 1:
        yield "two drives exchanged", good[:at + 1] + good[at + 4:at + 7] + good[at + 1:at + 4] + good[at + 7:]
        yield "a drive twice", put(at + 4, good[at + 1])


def good_words(rng, mp, states, lent):
    n = len(mp.devices)
    good = words(states, lent)
    at = 3 + rng.randrange(len(states)) * size(n) + 3 * rng.randrange(n)
    yield "an acceptance of 65,536 in a state", good[:at + 2] + [65536] + good[at + 3:]
    yield "a weight of 65,535 in a state", good[:at + 1] + [65535] + good[at + 2:]
    # of states that are none every other word is free
    yield "no state and all else free", [0] + lent[1:]
    yield "no state of another number of drives", [0, n + 1] + good[2:]
    yield "no state of drives without end", [0, WORD - 1] + good[2:]


# ---- lists of calls, as lines: an edit, `23` and a name (a store), `24` and a name (a return), `2c` (the map written), and these two

LOAD = b"26"  # the map as it stands is loaded again
SHORT_LOAD = b"27"  # the same without its last byte, which is refused


def named_line(line, kind):
    """The name in a line of this kind; None where it is none."""
    name = line[2:]
    return int(name, 16) if line[:2] == kind and len(name) == 4 and set(name) <= set(b"0123456789abcdef") else None


def edit_line(rng, mp, table):
    """An edit, mostly good and of a drive that is held."""
    held = sorted(set(table[:mp.G * mp.W]) & set(mp.devices))
    drive = rng.choice(held if held and rng.random() < 0.8 else sorted(mp.devices))
    w = mp.devices[drive][0]
    if rng.random() < 0.1:
        return rng.choice((b"21%04x00010001" % drive, b"22%04x00010000" % drive, b"21040000000000", b"23%04x0" % drive, b"2400", b"24000A"))
    if rng.random() < 0.5:
        return b"21%04x%08x" % (drive, rng.choice((0, 0, 65536, 65536, 32768, rng.randrange(65537))))
    return b"22%04x%08x" % (drive, rng.choice((0, min(65535, 2 * w + 1), w // 3, 65535, rng.randrange(65536))))


def eight_names(rng):
    """Eight names and a ninth, one of the eight again, and returns to all of them."""
    *names, ninth = named(rng, 9)
    for name in names:
        yield "edit"
        yield b"23%04x" % name
    yield b"23%04x" % ninth
    yield "edit"
    yield b"23%04x" % rng.choice((names[0], names[3], names[7]))
    yield b"24%04x" % ninth
    yield b"23%04x" % ninth
    for name in rng.sample(names, 8):
        yield b"24%04x" % name
        if rng.random() < 0.4:
            yield b"2c"


def replaced(rng):
    """A name stored again: what it had is lost, and the other names' states stay."""
    name, other = named(rng, 2)
    yield b"23%04x" % name
    yield "edit"
    yield b"23%04x" % other
    yield "edit"
    yield b"23%04x" % name
    yield "edit"
    yield b"24%04x" % name
    yield b"2c"
    yield b"24%04x" % other
    yield b"2c"


def moves_nothing(rng):
    """Returns to what stands, and to what was stored nowhere."""
    name, absent = named(rng, 2)
    yield b"24%04x" % name
    yield b"23%04x" % name
    yield b"24%04x" % name
    yield "edit"
    yield b"24%04x" % name
    yield b"24%04x" % name
    yield b"24%04x" % absent
    yield b"2c"


def campaign(rng):
    """Weights and acceptances of many drives shifted, and the old map again, and forth, and back."""
    before, during = named(rng, 2)
    yield b"23%04x" % before
    for _ in range(rng.randint(3, 8)):
        yield "edit"
    yield b"23%04x" % during
    yield b"24%04x" % before
    yield b"2c"
    yield "edit"
    yield b"24%04x" % during
    yield b"24%04x" % before
    yield b"2c"


def loads_between(rng):
    """A load that is refused leaves the states, a good one empties them, and there is room for eight names again."""
    names = named(rng, 9)
    for name in names[:rng.choice((1, 2, 8))]:
        yield b"23%04x" % name
        yield "edit"
    yield SHORT_LOAD
    yield b"24%04x" % names[0]
    yield LOAD
    yield b"24%04x" % names[0]
    for name in names[1:]:
        yield b"23%04x" % name
    yield "edit"
    yield b"23%04x" % names[0]
    yield b"24%04x" % names[8]
    yield b"2c"


KINDS = {"eight names": eight_names, "replaced": replaced, "moves nothing": moves_nothing, "campaign": campaign, "loads between": loads_between}


def small(crush, gen, rng, first_n, most):
    """A map of at most so many bytes, with a first-n select or without one, some place of which is filled."""
    while True:
        doc = rng.choice((gen.crowd, gen.build))(rng)
        doc.G = min(doc.G, 4)
        if not doc.steps or len(doc.bytes()) > most or first_n != any(step[0] == crush.FIRSTN for step in doc.steps) or not gen.calmed(rng, doc):
            continue
        mp = crush.load(doc.bytes(), gen.Doc.level)
        if not isinstance(mp, int) and set(crush.fresh_fill(mp)) & set(mp.devices):
            return doc, mp


def is_call(line):
    """Whether a line is a call beside edits."""
    return named_line(line, b"23") is not None or named_line(line, b"24") is not None or line in (b"2c", LOAD, SHORT_LOAD)


class Desk:
    """The map with its states and the table, from call to call, as the reference has them, and the calls so far with their numbers."""

    def __init__(self, crush, calls, reference, level, mp, table):
        self.crush, self.calls, self.reference, self.level = crush, calls, reference, level
        self.map, self.table = mp, table
        self.counts = []

    def told(self, call, number, printed=b""):
        self.counts.append((call, number))
        return self.reference.refusal(number) if number else printed

    def line(self, line):
        """What a call beside edits prints."""
        name = named_line(line, b"23")
        if name is not None:
            known = name in dict(self.map.states)
            number, self.map = self.calls.store(self.map, name)
            return self.told("store over" if known else "store", number)
        name = named_line(line, b"24")
        if name is not None:
            res = self.calls.return_to(self.map, self.table, name, self.reference.MOVES_BYTES)
            if not res.number:
                self.map, self.table = res.map, res.table
            return self.told("return" if res.moves or res.number else "return without a move", res.number, res.bytes())
        frames = self.crush.map_bytes(self.map)
        if line == b"2c":
            return self.told("write", 0, frames)
        loaded = self.crush.load(frames[:-1] if line == SHORT_LOAD else frames, self.level)
        if isinstance(loaded, int):
            return self.told("load", loaded)
        self.map = loaded
        return self.told("load", 0)


def list_of_calls(crush, calls, gen, reference, seed):
    """The kind of a list, and its input: a map and calls, with the edits chosen on the way. Of six lists one is of a first-n map."""
    rng = random.Random(f"calls:{seed}")
    kind = list(KINDS)[seed % len(KINDS)]
    doc, mp = small(crush, gen, rng, seed % 6 == 5, 800)
    desk = Desk(crush, calls, reference, gen.Doc.level, mp, crush.fresh_fill(mp))
    for line in KINDS[kind](rng):
        if line == "edit":
            line = edit_line(rng, desk.map, desk.table)
            edited = crush.edit(desk.map, desk.table, line, reference.MOVES_BYTES, False)
            desk.map, desk.table = edited.map, edited.table
        else:
            desk.line(line)
        doc.edits.append(line)
    return kind, doc.bytes()
