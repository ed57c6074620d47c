#!/usr/bin/env python3
"""Writes vectors.txt, days.txt, ceilings.txt, calls.txt and hashes.txt: calls of the engine, and what a CRUSH by another hand answers or does.

usage: make_vectors.py --oracle DIR [--level L] > vectors.txt
       make_vectors.py --oracle DIR [--level L] --days > days.txt
       make_vectors.py --oracle DIR [--level L] --ceilings > ceilings.txt
       make_vectors.py --oracle DIR [--level L] --calls > calls.txt
       make_vectors.py --oracle DIR [--level L] --hashes > hashes.txt

DIR holds the reference: crush.py, calls.py, fill.py and gen.py; L is the last change of document 02 that counts, 8 where it is not told. In
vectors.txt, days.txt and ceilings.txt a line is a call: the map's bytes in hexadecimal (or - for none); then of crush_place the group, the size of
the space, and the answer: number, places, tries, and the bytes written in hexadecimal (or -); of crush_day_group the show, the day, and the answer:
number and group; of crush_ceiling the table, four hexadecimal digits a place (or - for none), the drive, and the answer: number, groups and moves.
calls.txt has calls of crush_sizes_of, crush_load, crush_fill, crush_edit, crush_store, crush_return, crush_write and crush_day_drives in the form
that calls_test.c tells. hashes.txt has the lines of each map and behind them its calls (place, fill and edit), each with how many of the tests of a
device that are made for it meet an acceptance other than 65,536 and 0.
"""
import argparse
import os
import random
import sys
from unittest import mock

ap = argparse.ArgumentParser()
ap.add_argument('--oracle', required=True)
ap.add_argument('--level', type=int, default=8)
ap.add_argument('--days', action='store_true')
ap.add_argument('--ceilings', action='store_true')
ap.add_argument('--calls', action='store_true')
ap.add_argument('--hashes', action='store_true')
ARGS = ap.parse_args()
sys.path[:0] = [ARGS.oracle, os.path.join(os.path.dirname(os.path.abspath(__file__)), '..', 'tools')]
import blocks  # noqa: E402
import calls as others  # noqa: E402
import ceilings  # noqa: E402
import crush  # noqa: E402
import fill   # noqa: E402
import gen    # noqa: E402
import states  # noqa: E402
import weights  # noqa: E402

# the generator draws other maps for every level; changes 7 and 8 alter no map, and so have those of change 6
DRAWN = 6 if ARGS.level in (7, 8) else ARGS.level
gen.Doc.level = DRAWN
WORDS = 2 + states.MOST * states.size(1024)  # of the states that a call is lent
FREE = 0x5a5a5a5a  # a word that holds nothing yet


def maps(seeds, most):
    """A number, the bytes and the loaded map, or its refusal, of maps of at most so many bytes."""
    yield 0, b'', crush.load(b'', ARGS.level)
    for i in range(seeds):
        # every third seed of the edges is one of document 01, and the two between are the changes' own
        for kind, seed in (('valid', i), ('damaged', i), ('edges', 3 * i), ('edges', i + i // 2 + 1)):
            data = fill.split_input(gen.generate(seed, kind, DRAWN))[0]
            if len(data) <= most:
                yield i, data, crush.load(data, ARGS.level)


def place(data, group, size):
    space = bytearray(b'\x5a' * size)
    number, places, tries = crush.place(data, group, space, ARGS.level)
    wrote = bytes(space[:2 * places]).hex() or '-'
    print(data.hex() or '-', group, size, number, places, tries, wrote)


def extremes():
    """The highest and the lowest hash of a drive's test, each met by the acceptances next to it and by those that need no hash."""
    for low in (65535, 0):
        drive, group = next((d, x) for d in range(1024) for x in range(65536) if crush.hash2(x, d, crush.S) % 65536 == low)
        for acceptance in (65536, 65535, 1, 0):
            place(gen.flat(65536, [(drive, 1, acceptance)], gen.block(0, (crush.INDEP, 1, 0))).bytes(), group, 2)


def trees():
    """Trees of as many children as a height has at most, and of one less and one more; some of the children, or all, weigh 0."""
    rng = random.Random(4)
    for children in sorted({2 ** height + more for height in range(7) for more in (-1, 0, 1)} - {0, 65}):
        for weights in ((7,), (0, 0, 1, 300, 65535), (0,)):
            drives = [(n, rng.choice(weights), 65536) for n in rng.sample(range(1024), children)]
            doc = gen.flat(8, drives, gen.block(255, (crush.INDEP, 2, 0)), b=255)
            doc.kinds[255] = crush.TREE
            place(doc.bytes(), rng.randrange(8), 4)


def written():
    """Nested maps, also with weights that are not the sums, and with these and an earlier question answered no."""
    for depth in range(1, 6):
        rng = random.Random(f'weights:{depth}')
        doc = weights.nested(gen, rng, depth)
        place(doc.bytes(), 0, 64)
        ways = weights.untrue(rng, doc)
        for way in rng.sample(ways, min(8, len(ways))):
            place(weights.with_written(doc, way).bytes(), 0, 64)
        for number in weights.EARLIER:
            place(weights.beside(crush, gen, rng, number, depth).bytes(), 0, 64)


def sharing(count, groups):
    """The bytes of maps with blocks over common drives; none before change 5."""
    return [blocks.altered(crush, gen, random.Random(f'blocks:{i}'), i, 3, groups)[0].bytes()
            for i in range(count if ARGS.level >= crush.ONE_PLACE else 0)]


def places():
    extremes()
    trees()
    if ARGS.level >= crush.WRITTEN_WEIGHTS:
        written()
    for data in sharing(60, 4):
        for group in range(2):
            place(data, group, 64)
    for i, data, mp in maps(50, 6000):
        if isinstance(mp, int):
            place(data, 0, 64)
            continue
        for group in sorted({0, mp.G - 1, (i * 7) % mp.G}):
            place(data, group, 2 * mp.W + i % 3)
        place(data, mp.G, 64)
        place(data, 0, 2 * mp.W - 1)


def days():
    rng = random.Random(1)
    for _, data, mp in maps(10, 2000):
        for show, day in [(0, 0), (1, 0), (0, 1), (4294967295, 4294967295), (rng.getrandbits(32), rng.getrandbits(32))]:
            number, group = (14, 0) if isinstance(mp, int) else (0, crush.day_group(mp, show, day))
            print(data.hex() or '-', show, day, number, group)


def places_of(table):
    return ''.join(f'{place:04x}' for place in table) or '-'


def ceiling(frames, table, drive):
    answer = ceilings.answer(crush, ARGS.level, frames, table, drive)
    print(frames.hex() or '-', places_of(table), drive, *answer)


def limits():
    rng = random.Random(7)
    made = [(data, crush.load(data, ARGS.level)) for data in sharing(10, 3)]
    made += [(data, mp) for _, data, mp in maps(40, 640)]
    for i, (data, mp) in enumerate(made):
        if isinstance(mp, int):
            # of the generator's damaged maps a few, since `refused` makes some too
            if i % 6 == 0:
                ceiling(data, [0, crush.HOLE], 0)
        elif mp.G * mp.W <= 60:
            calls = list(ceilings.right(crush, rng, mp))
            # with a first-n select all of these are refused alike
            if any(step[0] == crush.FIRSTN for step in mp.steps):
                del calls[1:]
            for _, *call in calls + rng.sample(list(ceilings.refused(crush, rng, mp)), 2):
                ceiling(*call)


def text_of(data):
    """Bytes as a word: digits stand for themselves, a comma for a newline and %xx for any other byte."""
    return ''.join(chr(byte) if byte in b'0123456789abcdef' else ',' if byte == 10 else f'%{byte:02x}' for byte in data) or '-'


def altered_in(before, after, spell):
    """Where and how what a call leaves differs from what it was lent, of the same length."""
    assert len(before) == len(after)
    found, at = [], 0
    while at < len(before):
        end = at
        while end < len(before) and before[end] != after[end]:
            end += 1
        if end > at:
            found += spell(at, after[at:end])
        at = end + 1
    return ','.join(found) or '-'


def altered_text(before, after):
    return altered_in(before, after, lambda at, values: [f'{at}={values.decode()}'])


def altered_table(before, after):
    return altered_in(before, after, lambda at, values: [f'{at + i}={value:04x}' for i, value in enumerate(values)])


def altered_words(before, after):
    return altered_in(before, after, lambda at, values: [f'{at + i}={value}' for i, value in enumerate(values)])


class Lent:
    """The map, the table and the states that the calls of calls.txt are lent."""

    def __init__(self, data, table):
        self.data, self.table, self.words = data, table, None
        self.map = crush.load(data, ARGS.level)
        print('map', text_of(data))
        self.lend(table)

    def lend(self, table):
        self.table = table
        print('table', places_of(table))

    def lend_states(self, words):
        """Words over the front of those that hold nothing."""
        self.words = words + [FREE] * (WORDS - len(words))
        while words and words[-1] == FREE:
            words = words[:-1]
        print('states', ','.join(map(str, words)) or '-')

    def is_refused(self):
        return isinstance(self.map, int)

    def load(self):
        """A load empties the states, unless it is refused."""
        print('load', *((self.map, 0, 0) if self.is_refused() else (0, self.map.G, self.map.W)))
        if self.words and not self.is_refused():
            self.words = states.words([], self.words)

    def fill(self, room):
        space = [crush.HOLE] * room
        number, places = (14, 0) if self.is_refused() else crush.fill(self.map, space)
        assert space[:places] == self.table[:places]
        print('fill', room, number, places)

    def write(self, room):
        space = bytearray(room)
        number, count = (14, 0) if self.is_refused() else crush.write(self.map, space)
        assert space[:count] == self.data[:count]
        print('write', room, number, count)

    def drives(self, show, day, room):
        space = bytearray(room)
        group = 0 if self.is_refused() else crush.day_group(self.map, show, day)
        number, places, tries = crush.place(self.data, group, space, ARGS.level)
        print('drives', show, day, room, number, 0 if number else group, places, tries, bytes(space[:2 * places]).hex() or '-')

    def edit(self, frame, room):
        """Answers the number and the moves. An edit that is made leaves its map and its table to the calls behind it."""
        if self.is_refused():
            done = crush.Result(14, self.map, self.table, [])
        else:
            done = crush.edit(self.map, self.table, frame, room, False)
        data = self.data if done.number else crush.map_bytes(done.map)
        moves = b''.join(crush.move_frame(*move) for move in done.moves)
        print('edit', text_of(frame), room, done.number, len(done.moves), altered_text(self.data, data), altered_table(self.table, done.table),
              text_of(moves))
        self.data, self.map, self.table = data, done.map, done.table
        return done.number, len(done.moves)

    def store(self, name):
        number, words = states.store(crush, others, ARGS.level, self.data, self.words, name)
        print('store', name, number, altered_words(self.words, words))
        self.words = words
        return number

    def back(self, name, room):
        """A return; answers the number. What it leaves is lent to the calls behind it, as behind an edit."""
        number, moves, data, table, lines = states.back(crush, others, ARGS.level, self.data, self.table, self.words, name, room)
        print('return', name, room, number, moves, altered_text(self.data, data), altered_table(self.table, table), text_of(lines))
        self.data, self.map, self.table = data, crush.load(data, ARGS.level), table
        return number

    def moves_back(self, name):
        """How many moves a return makes that is taken."""
        return states.back(crush, others, ARGS.level, self.data, self.table, self.words, name, 23 * len(self.table))[1]


def good_frames(rng, mp, count):
    """Edits that are taken: of a drive that group 0 lies on, or of any."""
    held = [n for n in crush.rule(mp, 0)[0] if n != crush.HOLE]
    for _ in range(count):
        drive = rng.choice(held * 2 + sorted(mp.devices))
        weight = mp.devices[drive][0]
        yield rng.choice((b'21%04x%08x' % (drive, rng.choice((0, 0, 65536, 32768, 1))),
                          b'22%04x%08x' % (drive, rng.choice((0, 65535, weight // 2, 2 * weight % 65536, weight)))))


def bad_frames(rng, mp):
    """Edits that are refused with 18: malformed, of a drive that the map has not, and out of range by one and by more."""
    drive = rng.choice(sorted(mp.devices))
    absent = rng.choice([number for number in range(1025) if number not in mp.devices])
    good = b'21%04x00000000' % drive
    return [b'', b'21', good[:-1], good + b'0', good + b'\n', b'20' + good[2:], b'23' + good[2:], b'2' + good,
            good[:6] + b'0000000A', good[:6] + b'0000000 ', b'\xb2\xb1' + good[2:],
            b'21%04x%08x' % (drive, 65537), b'22%04x%08x' % (drive, 65536), b'22%04xffffffff' % drive,
            b'21%04x00000000' % absent, b'22%04x00000001' % absent, b'21ffff00000000']


def calls_of(rng, data):
    """Calls on a map: each answered and each refused by what it is lent, and by two things at once."""
    mp = crush.load(data, ARGS.level)
    if isinstance(mp, int):
        to = Lent(data, [0, crush.HOLE])
        to.load()
        to.fill(rng.choice((0, 2)))
        to.write(rng.choice((0, len(data), len(data) + 1)))
        to.drives(rng.getrandbits(32), rng.getrandbits(32), rng.choice((0, 64)))
        to.edit(rng.choice((b'', b'21000000000000')), rng.choice((0, 230)))
        return
    fresh = crush.fresh_fill(mp)
    to = Lent(data, fresh)
    to.load()
    for room in (len(fresh) - 1, len(fresh), len(fresh) + rng.randint(1, 3), *rng.sample((0, 1, len(fresh) // 2), 1)):
        to.fill(room)
    for room in (len(data) - 1, len(data), len(data) + rng.randint(1, 9), 0):
        to.write(room)
    for room in (2 * mp.W - 1, 2 * mp.W, 2 * mp.W + 1, 64, rng.randrange(2 * mp.W)):
        to.drives(rng.choice((0, 1, 2 ** 32 - 1, rng.getrandbits(32))), rng.choice((0, 2 ** 32 - 1, rng.getrandbits(32))), room)
    drive = rng.choice(sorted(set(fresh) - {crush.HOLE}) or sorted(mp.devices))
    good, bad = b'21%04x00000000' % drive, bad_frames(rng, mp)
    if any(step[0] == crush.FIRSTN for step in mp.steps):
        to.edit(good, 23 * len(fresh))
        to.edit(rng.choice(bad), 0)
        to.lend(fresh[:-1])
        to.edit(good, 23 * len(fresh))
        return
    for frame in rng.sample(bad, 3):
        to.edit(frame, rng.choice((0, 23 * len(fresh))))
    to.lend(fresh[:-1])
    to.edit(rng.choice((good, rng.choice(bad))), 23 * len(fresh))
    to.lend(ceilings.altered(crush, rng, mp, fresh, drive))
    to.edit(good, rng.choice((0, 23 * len(fresh))))
    to.edit(rng.choice(bad), 0)
    # behind the places of the last group nothing is looked at and nothing altered
    to.lend(fresh + [drive, 7, drive][:rng.randint(0, 3)])
    for frame in good_frames(rng, mp, 5):
        moves = len(crush.edit(to.map, to.table, frame, 23 * len(fresh), False).moves)
        if moves:
            to.edit(frame, 23 * moves - rng.choice((1, 1, 22, 23, 23 * moves)))
        to.edit(frame, 23 * moves + rng.choice((0, 0, 1, 23, 40)))
    to = Lent(ceilings.damaged(crush, rng, mp), fresh)
    to.edit(good, 23 * len(fresh))


def campaign(rng, to, names):
    """Stores, edits and returns one after another, names replaced among them; then as many names as there can be, and one more."""
    room = 23 * len(to.table)
    to.load()
    to.back(names[0], room)
    for name in (*names[:3], names[1], names[0]):
        to.store(name)
        for frame in good_frames(rng, to.map, rng.choice((1, 1, 2, 4))):
            to.edit(frame, room)
        known = rng.choice(names[:3])
        moves = to.moves_back(known)
        if moves:
            # a byte too short, and less
            to.back(known, 23 * moves - rng.choice((1, 1, 22, 23, 23 * moves)))
        to.back(known, 23 * moves + rng.choice((0, 0, 1, 23, 40)))
        # a second time nothing moves, and no space is needed
        to.back(known, 0)
        to.back(names[8], rng.choice((0, room)))
    for name in (*names[3:], names[2], names[7]):
        to.store(name)
    for frame in good_frames(rng, to.map, 2):
        to.edit(frame, room)
    to.store(rng.choice(names[:8]))
    to.store(names[8])
    for name in rng.sample(names[:8], 2):
        to.back(name, room)


def damages(rng, to, mp, names):
    """Words that question 14 is answered no of, and others that look alike and are good."""
    kept = [(name, states.changed(rng, mp, rng.choice((0, 1, 3)))) for name in names[:3]]
    beyond = [FREE] * (2 + 3 * states.size(len(mp.devices)))
    bad = list(states.bad_words(rng, mp, kept, beyond))
    for _, words in bad:
        to.lend_states(words)
        to.store(rng.choice((names[0], names[4])))
        to.back(rng.choice((names[0], names[4])), rng.choice((0, 23 * len(to.table))))
    for _, words in states.good_words(rng, mp, kept, beyond):
        to.lend_states(words)
        to.store(rng.choice((names[0], names[4])))
    return rng.choice(bad)[1], states.words(kept, beyond)


def states_of(rng, data):
    """Loads, stores and returns on a map: each answered and each refused by what it is lent, and by two things at once."""
    mp = crush.load(data, ARGS.level)
    names = states.named(rng, 9)
    if isinstance(mp, int):
        to = Lent(data, [0, crush.HOLE])
        for words in ([1, 2, 3], [0, 7], []):
            to.lend_states(words)
            to.load()
            to.store(names[0])
            to.back(names[0], rng.choice((0, 230)))
        return
    fresh = crush.fresh_fill(mp)
    to = Lent(data, fresh)
    # not loaded yet
    to.lend_states([rng.choice((9, FREE)), *rng.sample(range(2 ** 32), 3)])
    to.store(names[0])
    if any(step[0] == crush.FIRSTN for step in mp.steps):
        to.load()
        to.back(names[0], 0)
        to.store(names[0])
        to.back(names[0], 23 * len(fresh))
        to.lend(fresh[:-1])
        to.back(names[0], 0)
        return
    campaign(rng, to, names)
    to = Lent(data, fresh)
    bad, good = damages(rng, to, mp, names)
    short, other, room = fresh[:-1], ceilings.altered(crush, rng, mp, fresh, rng.choice(sorted(mp.devices))), 23 * len(fresh)
    # each question answered no alone, and with all behind it
    for words, table, name, space in (
            (bad, short, names[4], 0), (good, short, names[0], room), (good, short, names[4], 0), (good, other, names[4], 0),
            (good, fresh, names[4], room), (good, other, names[0], room), (good, other, names[0], 0)):
        to.lend(table)
        to.lend_states(words)
        to.back(name, space)
    # behind the places of the last group nothing is looked at and nothing altered
    to.lend(fresh + [7, 0, 7][:rng.randint(0, 3)])
    for name in names[:3]:
        to.back(name, room)
    # a refused load leaves the states
    to = Lent(ceilings.damaged(crush, rng, mp), fresh)
    to.lend_states(good)
    to.load()
    to.store(names[0])
    to.back(names[0], room)


def every_refusal(seeds, each):
    """Of the maps of so many seeds that load refuses the shortest, so many by each number."""
    by_number = {number: set() for number in (*range(1, 13), 21, 22, 23)}
    for seed in range(seeds):
        data = fill.split_input(gen.generate(seed, 'damaged', DRAWN))[0]
        number = crush.load(data, ARGS.level)
        if isinstance(number, int):
            by_number[number].add(data)
    for found in by_number.values():
        assert len(found) >= each
        yield from sorted(found, key=lambda data: (len(data), data))[:each]


def calls():
    rng = random.Random(21)
    good = [data for _, data, mp in maps(40, 900) if not isinstance(mp, int) and mp.G * mp.W <= 60]
    nested = [weights.nested(gen, random.Random(f'calls:{depth}:{i}'), depth).bytes() for depth in range(1, 6) for i in range(4)]
    shared = sharing(12, 3)
    for data in [b'', *every_refusal(1000, 4), *good, *shared, *nested]:
        calls_of(rng, data)
    rng = random.Random(8)
    for data in [b'', *every_refusal(1000, 1), *good[::6], *shared[::4], *nested[::3]] if ARGS.level >= crush.STATES else []:
        states_of(rng, data)


def accepting(rng, data, values):
    """The bytes of a map with one of the values for each drive's acceptance."""
    lines = data.decode().splitlines(keepends=True)
    return ''.join(f'{line[:14]}{rng.choice(values):08x}\n' if line.startswith('01') else line for line in lines).encode()


def asking(mp, groups):
    """How many tests of a device meet an acceptance other than 65,536 and 0 while the groups are placed."""
    with mock.patch.object(crush, 'accepts', wraps=crush.accepts) as tested:
        for group in groups:
            crush.Run(mp, group)
    return sum(call.args[0].devices[call.args[2]][1] not in (0, 65536) for call in tested.call_args_list)


def edits_of(rng, mp):
    """Edits of a drive that group 0 lies on, or of any; none where a select is first-n."""
    if any(step[0] == crush.FIRSTN for step in mp.steps):
        return []
    drive = rng.choice([n for n in crush.rule(mp, 0)[0] if n != 65535] or sorted(mp.devices))
    return [('21', drive, 0), ('21', drive, 65536), ('21', drive, 32768), ('22', drive, mp.devices[drive][0] // 2)]


def hashes_of(rng, data):
    """The lines of a map and of its calls; none where a call has more than 200 such tests, since each is counted at a breakpoint."""
    mp = crush.load(data, ARGS.level)
    every = asking(mp, range(mp.G))
    calls = [f'place {group} {asking(mp, [group])}' for group in sorted({0, mp.G - 1})]
    calls.append(f'fill {every}')
    for kind, drive, value in edits_of(rng, mp):
        # both runs
        calls.append(f'edit {kind}{drive:04x}{value:08x} {every + asking(crush.edited(mp, kind, drive, value), range(mp.G))}')
    if all(int(call.split()[-1]) <= 200 for call in calls):
        print(data.decode() + '\n'.join(calls))


def hashes():
    rng = random.Random(3)
    small = [data for _, data, mp in maps(60, 1500) if not isinstance(mp, int) and mp.G * mp.W <= 60]
    for data in [*small, *sharing(24, 2)]:
        hashes_of(rng, accepting(rng, data, (65536, 65536, 0)))
        hashes_of(rng, accepting(rng, data, (65536, 65536, 65536, 0, 1, 32768, 65535)))


hashes() if ARGS.hashes else calls() if ARGS.calls else limits() if ARGS.ceilings else days() if ARGS.days else places()
