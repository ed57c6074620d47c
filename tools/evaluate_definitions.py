#!/usr/bin/env python3
"""Evaluates the definitions (crates/definitions) against a CRUSH in Python by another hand.

usage: evaluate_definitions.py --oracle DIR [--level L] [--seed N] [--maps N] [--edits N] [--damaged N] [--walks N]
                [--leaves N] [--ties N] [--through N] [--trees N]
                [--blocks N] [--weights N] [--ceilings N] [--states N]
                [--keys N] [--per N]
                [--crate DIR] [--keep] [--wrong] [--verbose] [--giving-up]

DIR holds the reference: crush.py, calls.py, fill.py and gen.py.

Takes inputs from the reference's generator (small maps, 1 to 3 groups), has
the reference compute what should come out, writes each as an antt theorem
`DEFINITION ARGUMENTS ≡ EXPECTED` proved by `refl`, and has `rt check` judge
them, in a scratch repository outside this one.  Prints how many held.

  --leaves   hashes of two, three and four, logarithms and keys, of random
             numbers
  --maps     valid maps: load, sizes, write, day, placing of every group (places
             and tries), the daemon's bytes, a day's drives
  --edits    maps with a list of edits: number, count of moves, map, table and
             moves after each edit
  --damaged  damaged maps, and maps at a limit: load's number, the sizes
  --ties     maps made for equal keys, and for keys one step apart: one group
  --walks    maps of which each place's whole walk (draws and tests) is compared
  --through  maps with a step 5, every other of them with an inner walk that
             finds none: load, placing and walk of a group, an edit, the fill;
             with each three rules with a step 5, good or bad: load's number
  --trees    draws in trees of 1 to 64 children, some or all of weight 0, with
             the height, the labels and the weights of the nodes on the way; for
             every fifth a map with trees: load, placing and walk of a group, an
             edit, the fill; and load's number for each kind of bucket
  --blocks   maps whose rule has two or more blocks over common drives, each
             with a list that change 5 alters: load, placing and walk of a
             group, an edit, the fill
  --weights  nested maps: load's number, also where weights are written that
             are not the sums, alone and with an earlier question answered no;
             edits put in: the map, and its text
  --ceilings maps, of four one with a hole, one with a step 5 and one with a
             first-n select: the ceiling for drives that are held and for one
             that is not, also with a longer table; refusals by each question,
             alone and with later ones
  --states   maps with named states, of four one with a tree, one with a step 5
             and one with a first-n select: loads, stores (a new name, one that
             is there, a ninth), returns (with moves and without, also behind
             edits), each with what lies beyond the words, the table and the
             moves; refusals by each question, alone and with later ones; states
             that are damaged or another map's
  --giving-up  besides, two placings: one live drive in one cabinet, 2 tries;
             one dead drive, 2,550 tries, in fifty equations of a turn each
  --level    the last change of document 02 that counts
  --keys     most straw keys (and tests of acceptance, at 0.6, and turns in a
             tree, at 1.5) one theorem may need: a theorem may take 50 million
             steps, and a key takes some 65,000
  --per      theorems a crate
  --wrong    changes every expected value, of a record one field, now this, now
             that: each theorem must be refused
"""
import argparse
import os
import random
import re
import resource
import shutil
import subprocess
import sys
import tempfile
import time

HERE = os.path.dirname(os.path.abspath(__file__))
CRATE = os.path.join(HERE, '..', 'crates', 'definitions')

ap = argparse.ArgumentParser()
for name, value in (('seed', 1), ('maps', 4), ('edits', 2), ('damaged', 6),
                    ('walks', 1), ('leaves', 5), ('ties', 0), ('through', 4),
                    ('trees', 10), ('blocks', 4), ('weights', 8), ('ceilings', 4),
                    ('states', 4), ('keys', 500), ('per', 60), ('level', 8)):
    ap.add_argument('--' + name, type=int, default=value)
ap.add_argument('--oracle', required=True)
ap.add_argument('--crate', default=CRATE)
ap.add_argument('--keep', action='store_true')
ap.add_argument('--wrong', action='store_true')
ap.add_argument('--verbose', action='store_true')
ap.add_argument('--giving-up', action='store_true')
ARGS = ap.parse_args()
CRATE = os.path.abspath(ARGS.crate)

sys.path.insert(0, ARGS.oracle)
import blocks  # noqa: E402
import calls  # noqa: E402
import ceilings  # noqa: E402
import crush  # noqa: E402
import fill   # noqa: E402
import gen    # noqa: E402
import states  # noqa: E402
import weights  # noqa: E402

gen.Doc.level = ARGS.level


def loaded(data):
    return crush.load(data, ARGS.level)


# ------------------------------------------------------------ antt text

# what the names of a definition begin with
OF = 'Rattle.definitions.specs.'


def header(more=''):
    """What stands above the theorems, and the line under each signature."""
    return """-- Written by evaluate_definitions.py.
use Rattle.std.specs.Prelude.{◌≡◌, refl, List, [], ◌∷◌, map, ℕ, zero, suc, ◌+◌, ◌*◌, ◌/◌, ◌%%◌, replicate, Option, None, Some}
use %(of)sdeclared.Verdict.{Verdict}
use %(of)sdeclared.Verdict.TheVariants.{Held, Rejected, Passed}
use %(of)sdeclared.Event.{Event}
use %(of)sdeclared.Event.TheVariants.{Drew, Tested}
use %(of)sdeclared.Change.TheVariants.{Acceptance, Weight}
use %(of)sHash.{hash2, hash3, hash4}
use %(of)sStraw.{L, key}
use %(of)sTree.{label_of, height_of, node_weight, tree_of}
use %(of)sMap.{map_of}
use %(of)sSelect.{Place}
use %(of)sRule.{placed_of}
use %(of)sEdit.{put}
use %(of)sWriting.{map_text}
use %(of)sLoad.{load_number}
use %(of)sCalls.{sizes_of, load_of, place_of, daemon_of, fill_of, edit_of, store_of, return_of, ceiling_of, write_of, day_of, drives_of}
use %(of)sOpen.{computing}
%(more)s
-- the k bytes that a number spells, highest first
bytes_to : ℕ → ℕ → List ℕ → List ℕ
bytes_to zero n acc = acc
bytes_to (suc k) n acc = bytes_to k (n / 256) (n %% 256 ∷ acc)

-- an event as a number
drawn_code : Option ℕ → ℕ
drawn_code (Some i) = i + 1
drawn_code None = 0

verdict_code : Verdict → ℕ
verdict_code Held = 1
verdict_code Rejected = 2
verdict_code Passed = 3

event_code : Event → ℕ
event_code (Drew b r d) = ((drawn_code d * 1000000 + r) * 1000 + b) * 10
event_code (Tested i v) = i * 10 + verdict_code v
""" % {'of': OF, 'more': more}, 'unfolding computing bytes_to drawn_code verdict_code event_code'


def open_names():
    """Every unfoldable definition must stand in specs/Open.antt."""
    opened = open(os.path.join(CRATE, 'specs', 'Open.antt')).read()
    opened = re.search(r'(?m)^unfolding (.*)$', opened).group(1).split()
    missing = []
    for mod in re.findall(r'^pub mod (\S+)',
                          open(os.path.join(CRATE, 'specs', 'Lib.antt')).read(),
                          re.M):
        if mod == 'Open':
            continue
        for line in open(os.path.join(CRATE, 'specs', mod + '.antt')):
            m = re.match(r'\s*unfoldable pub (\S+) :', line)
            if m and m.group(1) not in opened:
                missing.append(mod + '.' + m.group(1))
    if missing:
        raise SystemExit('not in specs/Open.antt: ' + ' '.join(missing))


def text(b):
    """bytes as an antt list"""
    return '(bytes_to %d 0x%s [])' % (len(b), bytes(b).hex()) if b else '[]'


def numbers(ns):
    return '(%s)' % ' ∷ '.join([str(n) for n in ns] + ['[]'])


class Theorems:
    def __init__(self):
        self.items = []                      # (name, kind, keys, text, what
        #                                      is in it: STEP_5, NONE, TREE,
        #                                      SHARED)

    def add(self, kind, what, left, right, keys=0, mp=None, dead=0):
        """mp is the map, or the tree, that the equation is of, dead how many
        inner walks find none in it."""
        name = 't%d' % len(self.items)
        if ARGS.wrong:
            right = spoil(right, len(self.items))
        has = {STEP_5: mp is not None and goes_through(mp), NONE: dead > 0,
               TREE: mp is not None and crush.TREE in mp.kinds.values(),
               SHARED: mp is not None and blocks.share_drives(crush, mp)}
        self.items.append((name, kind, keys,
                           '-- %s: %s\n%s : %s ≡ %s' % (kind, what, name, left,
                                                       right),
                           [part for part in has if has[part]]))


STEP_5, NONE, TREE, SHARED = 'a step 5', 'an inner walk that finds none', \
    'a tree', 'blocks over common drives'


def goes_through(mp):
    return any(s[0] == crush.THROUGH for _, selects in mp.blocks()
               for s in selects)


NUMBER = re.compile(r'(?<![\w.])(0x[0-9a-f]+|\d+)(?![\w])')


def spoil(right, turn):
    """The expected value with a number changed: of a record the last one of a
    field, whose turn it is."""
    parts = right.split('; ') if right.startswith('record') else [right]
    fields = [i for i, part in enumerate(parts) if NUMBER.search(part)]
    at = fields[turn % len(fields)]
    m = list(NUMBER.finditer(parts[at]))[-1]
    parts[at] = (parts[at][:m.start()] + hex(int(m.group(1), 0) + 1)
                 + parts[at][m.end():])
    return '; '.join(parts)


# --------------------------------------------------------------- inputs

def small_doc(seed, indep=None):
    """A valid map of the reference's generator, with 1 to 3 groups."""
    rng = random.Random('defs:%d:%s' % (seed, indep))
    while True:
        d = gen.crowd(rng) if rng.random() < 0.4 else gen.build(rng)
        if not d.steps:
            continue
        d.G = rng.choice([1, 2, 2, 3])
        firstn = any(s[0] == 2 for s in d.steps)
        if indep is not None and firstn == indep:
            continue
        if len(d.bytes()) > 1500 or isinstance(loaded(d.bytes()), int):
            continue
        return rng, d


ACCEPTS, DEAD = [0], [0]
plain_accepts, plain_inner_walk = crush.accepts, crush.inner_walk


def counting_accepts(mp, x, device):
    ACCEPTS[0] += 1
    return plain_accepts(mp, x, device)


def counting_inner_walk(*arguments):
    found = plain_inner_walk(*arguments)
    DEAD[0] += found[0] is None
    return found


crush.accepts = counting_accepts
crush.inner_walk = counting_inner_walk
crush.inner_draw = crush.draw          # the definitions remember no draw


def keys_of(run):
    """The value of run(), what its evaluation costs, in straw keys, and how
    many inner walks in it find none."""
    counted = (crush.cost, 1), (crush.hash4, 1.5)
    for hashed, _ in counted:
        hashed.cache_clear()
    ACCEPTS[0] = DEAD[0] = 0
    value = run()
    keys = ACCEPTS[0] * 0.6
    for hashed, each in counted:
        info = hashed.cache_info()
        keys += (info.hits + info.misses) * each
    return value, int(keys), DEAD[0]


def runs_cost(*maps):
    """The same for all groups of these maps, without the value."""
    costs = [keys_of(lambda: crush.rule(mp, g))[1:]
             for mp in maps for g in range(mp.G)]
    return tuple(map(sum, zip(*costs)))


STATS = {}


def note_stats():
    for k, v in crush.STATS.items():
        STATS[k] = STATS.get(k, 0) + v
    crush.STATS.clear()


def leaves(ths, count):
    rng = random.Random('leaves:%d' % ARGS.seed)
    word = lambda: rng.choice([rng.randrange(2 ** 32), rng.randrange(70000)])
    for i in range(count):
        p, q, s, z = word(), word(), word(), word()
        ths.add('leaf', 'hash of two', 'hash2 %d %d %d' % (crush.S, p, q),
                str(crush.hash2(p, q)))
        ths.add('leaf', 'hash of three',
                'hash3 %d %d %d %d' % (crush.S, p, q, s),
                str(crush.hash3(p, q, s)))
        ths.add('leaf', 'hash of four',
                'hash4 %d %d %d %d %d' % (crush.S, p, q, s, z),
                str(crush.hash4(p, q, s, z)))
        u = rng.choice([word() + 1, 2 ** rng.randrange(33),
                        2 ** rng.randrange(1, 33) - 1])
        ths.add('leaf', 'logarithm', 'L %d' % u, str(crush.L(u)))
        c, k = rng.randrange(2 ** 25), rng.choice([1, rng.randrange(1, 65536)])
        ths.add('leaf', 'key', 'key %d %d' % (c, k), str(crush.key(c, k)))


def place_theorem(ths, kind, what, mp, g, places, tries, keys, dead, extra=0):
    """Group g placed, with so many places more lent than needed."""
    ths.add(kind, '%s group %d, %d keys' % (what, g, keys),
            'place_of %s %d (replicate %d 7)' % (text(crush.map_bytes(mp)), g,
                                                mp.W + extra),
            'record { number = 0; places = %d; tries = %d; row = %s }'
            % (mp.W, tries, numbers(places + [7] * extra)), keys, mp, dead)


def valid_maps(ths, count):
    seed, done = ARGS.seed * 100000, 0
    tries = groups = holes = 0
    crush.STATS.clear()
    while done < count:
        seed += 1
        rng, d = small_doc(seed)
        data = d.bytes()
        mp = loaded(data)
        assert not isinstance(mp, int), mp
        crush.STATS.clear()
        runs = [keys_of(lambda g=g: crush.rule(mp, g)) for g in range(mp.G)]
        if any(k > ARGS.keys for _, k, _ in runs):
            continue
        note_stats()
        done += 1
        w = mp.W
        b = text(data)
        ths.add('load', 'seed %d' % seed, 'load_number %s' % b, '0', 0, mp)
        ths.add('sizes', 'seed %d' % seed, 'sizes_of %s' % b,
                'record { number = 0; groups = %d; places = %d }' % (mp.G, w))
        ths.add('write', 'seed %d' % seed,
                'write_of %s (replicate %d 7)' % (b, len(data) + 1),
                'record { number = 0; bytes = %d; space = %s }'
                % (len(data), text(data + b'\7')), 0, mp)
        show, day = rng.randrange(2 ** 32), rng.randrange(2 ** 32)
        ths.add('day', 'seed %d' % seed, 'day_of %s %d %d' % (b, show, day),
                'record { number = 0; group = %d }'
                % crush.day_group(mp, show, day))
        extra = rng.choice([0, 0, 1, 3])
        for g, ((places, tr), k, dead) in enumerate(runs):
            groups += 1
            tries += tr
            holes += places.count(65535)
            place_theorem(ths, 'place', 'seed %d' % seed, mp, g, places, tr, k,
                          dead, extra)
        g = rng.randrange(mp.G)
        space = bytearray(b'\7' * (2 * w + extra))
        number, n, tr = crush.place(data, g, space, ARGS.level)
        ths.add('daemon', 'seed %d group %d' % (seed, g),
                'daemon_of %s %d (replicate %d 7)' % (b, g, 2 * w + extra),
                'record { number = %d; places = %d; tries = %d; out = %s }'
                % (number, n, tr, text(space)), runs[g][1], mp, runs[g][2])
        g = crush.day_group(mp, show, day)
        space = bytearray(b'\7' * (2 * w + extra))
        number, n, tr = crush.place(data, g, space, ARGS.level)
        ths.add('drives', 'seed %d group %d' % (seed, g),
                'drives_of %s %d %d (replicate %d 7)'
                % (b, show, day, 2 * w + extra),
                'record { number = %d; group = %d; places = %d; tries = %d; '
                'out = %s }' % (number, g, n, tr, text(space)),
                runs[g][1], mp, runs[g][2])
        ths.add('refusal', 'seed %d list too long' % seed,
                'drives_of %s %d %d (replicate %d 7)'
                % (b, show, day, 2 * w - 1),
                'record { number = 16; group = 0; places = 0; tries = 0; '
                'out = %s }' % numbers([7] * (2 * w - 1)))
        ths.add('refusal', 'seed %d no such group' % seed,
                'place_of %s %d (replicate %d 7)' % (b, mp.G, w),
                'record { number = 15; places = 0; tries = 0; row = %s }'
                % numbers([7] * w))
        ths.add('refusal', 'seed %d row too short' % seed,
                'place_of %s 0 (replicate %d 7)' % (b, w - 1),
                'record { number = 16; places = 0; tries = 0; row = %s }'
                % numbers([7] * (w - 1)))
    print('maps: %d, groups placed: %d, tries in all: %d, holes: %d'
          % (count, groups, tries, holes))
    print('reached in placing:', ', '.join('%s: %d' % c
                                           for c in sorted(STATS.items())))


def edit_theorem(ths, what, mp, table, frame, space, keys, dead):
    res = crush.edit(mp, table, frame, space)
    moved = res.bytes()
    lent = b'\7' * space
    ths.add('edit', '%s, %d keys' % (what, keys),
            'edit_of %s %s %s %s' % (text(crush.map_bytes(mp)), numbers(table),
                                    text(frame), text(lent)),
            'record { number = %d; moves = %d; frames = %s; table = %s; '
            'space = %s }' % (res.number, res.count(),
                              text(crush.map_bytes(res.map)),
                              numbers(res.table),
                              text(moved + lent[len(moved):])), keys, mp,
            dead if res.number in (0, 20) else 0)
    return res


def fill_theorem(ths, what, mp, extra=2):
    fresh = crush.fresh_fill(mp)
    keys, dead = runs_cost(mp)
    ths.add('fill', what,
            'fill_of %s (replicate %d 7)' % (text(crush.map_bytes(mp)),
                                            len(fresh) + extra),
            'record { number = 0; places = %d; table = %s }'
            % (len(fresh), numbers(fresh + [7] * extra)), keys, mp, dead)


def good_edits(rng, d, count):
    """Edits that are mostly good and mostly of a device that is placed."""
    gen.add_edits(rng, d, count)
    mp = loaded(b''.join(l + b'\n' for l in d.lines()))
    held = [p for p in crush.fresh_fill(mp) if p != crush.HOLE]
    for i in range(len(d.edits)):
        if held and rng.random() < 0.6:
            dev = rng.choice(held)
            w, a = mp.devices[dev]
            d.edits[i] = rng.choice([
                b'21%04x%08x' % (dev, 0), b'22%04x%08x' % (dev, 0),
                b'22%04x%08x' % (dev, min(65535, w * rng.choice([2, 5, 50]))),
                b'22%04x%08x' % (dev, w // 3), b'21%04x%08x' % (dev, 65536)])
    return mp


def edited(mp, line):
    """The map with the edit put in, whether or not there is room for it."""
    form = crush.edit_form(line)
    if form is None or not crush.edit_value_ok(mp, *form):
        return mp
    kind, device, value = form
    return mp.with_device(device, **{'acceptance' if kind == '21' else
                                     'weight': value})


def edit_maps(ths, count):
    seed, done = ARGS.seed * 100000, 0
    good = refused = moves = 0
    causes, numbers_seen = {}, {}

    def counted(res):
        nonlocal good, refused, moves
        numbers_seen[res.number] = numbers_seen.get(res.number, 0) + 1
        if res.number:
            refused += 1
        else:
            good += 1
        for mv in res.moves:
            causes[mv[4]] = causes.get(mv[4], 0) + 1
            moves += 1

    while done < count:
        seed += 1
        rng, d = small_doc(seed, True)
        mp = good_edits(rng, d, rng.choice([2, 3, 4]))
        table = crush.fresh_fill(mp) + [7] * rng.choice([0, 0, 2])
        plan, now, tab = [], mp, table
        met = set()
        for line in d.edits:
            size = rng.choice([0, 23, 46, 230, 2300, 2300, 2300])
            res = crush.edit(now, tab, line, size)
            k, dead = runs_cost(now, edited(now, line))
            plan.append((now, tab, line, size, k, dead))
            met |= {mv[4] for mv in res.moves}
            now, tab = res.map, res.table
        if any(k > ARGS.keys for *_, k, _ in plan):
            continue
        # every other list has a move with cause 03, most of the others a move
        if done % 2 == 0 and '03' not in met:
            continue
        if not met and rng.random() < 0.8:
            continue
        done += 1
        for i, (m, t, line, size, k, dead) in enumerate(plan):
            counted(edit_theorem(ths, 'seed %d edit %d' % (seed, i), m, t, line,
                                 size, k, dead))
        m, t, line, size, k, dead = plan[0]
        counted(edit_theorem(ths, 'seed %d table too short' % seed, m,
                             t[:m.G * m.W - 1], line, size, k, dead))
        bad = list(t)
        i = rng.randrange(m.G * m.W)
        bad[i] = rng.choice([65535, 0, bad[i] ^ 1])
        counted(edit_theorem(ths, 'seed %d table altered' % seed, m, bad, line,
                             size, k, dead))
        good_one = crush.edit(m, t, line, 65536)
        if good_one.moves:
            counted(edit_theorem(ths, 'seed %d space short by one' % seed, m, t,
                                 line, 23 * good_one.count() - 1, k, dead))
            counted(edit_theorem(ths, 'seed %d space just enough' % seed, m, t,
                                 line, 23 * good_one.count(), k, dead))
        fill_theorem(ths, 'seed %d' % seed, m)
    # first-n maps: 17
    for seed in range(ARGS.seed * 100000, ARGS.seed * 100000 + (count + 3) // 4):
        rng, d = small_doc(seed, False)
        d.G = 1
        gen.add_edits(rng, d, 1)
        mp = loaded(b''.join(l + b'\n' for l in d.lines()))
        counted(edit_theorem(ths, 'seed %d first-n' % seed, mp,
                             crush.fresh_fill(mp), d.edits[0], 100, 0, 0))
    print('edits: %d maps, good: %d, refused: %d, moves: %d, causes: %s, '
          'numbers: %s'
          % (count, good, refused, moves,
             ' '.join('%s: %d' % c for c in sorted(causes.items())),
             ' '.join('%d: %d' % c for c in sorted(numbers_seen.items()))))


def damaged_maps(ths, count):
    seed, done = ARGS.seed * 1000, 0
    numbers_seen = {}
    while done < count:
        seed += 1
        kind = 'damaged' if seed % 3 else 'edges'
        data = fill.split_input(gen.generate(seed, kind, ARGS.level))[0]
        if len(data) > 4000:
            continue
        done += 1
        res = loaded(data)
        number = res if isinstance(res, int) else 0
        numbers_seen[number] = numbers_seen.get(number, 0) + 1
        ths.add('load', '%s %d' % (kind, seed), 'load_number %s' % text(data),
                str(number), 0, None if number else res)
        ths.add('sizes', '%s %d' % (kind, seed), 'sizes_of %s' % text(data),
                'record { number = %d; groups = %d; places = %d }'
                % (number, 0 if number else res.G, 0 if number else res.W))
        if number:
            ths.add('refusal', '%s %d' % (kind, seed),
                    'drives_of %s 1 2 (3 ∷ [])' % text(data),
                    'record { number = %d; group = 0; places = 0; tries = 0; '
                    'out = 3 ∷ [] }' % number)
            ths.add('refusal', '%s %d' % (kind, seed),
                    'edit_of %s (1 ∷ []) (2 ∷ []) (3 ∷ [])' % text(data),
                    'record { number = 14; moves = 0; frames = %s; '
                    'table = 1 ∷ []; space = 3 ∷ [] }' % text(data))
            ths.add('refusal', '%s %d' % (kind, seed),
                    'daemon_of %s 0 (3 ∷ [])' % text(data),
                    'record { number = %d; places = 0; tries = 0; '
                    'out = 3 ∷ [] }' % number)
    print('damaged: %d maps, numbers: %s'
          % (count, ' '.join('%d: %d' % c for c in sorted(numbers_seen.items()))))


def tie_maps(ths, count):
    made = 0
    for seed in range(ARGS.seed * 1000, ARGS.seed * 1000 + count):
        rng = random.Random('ties:%d' % seed)
        make = rng.choice([gen.e_tie, gen.e_tie_bucket, gen.e_floor_tie,
                           gen.e_precision, gen.e_truncation])
        mp = loaded(fill.split_input(make(rng))[0])
        g = mp.G - 1
        (places, tr), k, dead = keys_of(lambda: crush.rule(mp, g))
        if k > ARGS.keys:
            continue
        made += 1
        place_theorem(ths, 'tie', '%s %d' % (make.__name__, seed), mp, g,
                      places, tr, k, dead)
    if count:
        print('ties: %d maps' % made)


def event_code(e):
    if isinstance(e, crush.Draw):
        d = 0 if e.winner is None else e.winner + 1
        return ((d * 1000000 + e.rp) * 1000 + e.bucket) * 10
    v = {crush.HELD: 1, crush.NOT_ACCEPTED: 2, crush.PASSED: 3}[e.result]
    return e.item * 10 + v


def walk_theorem(ths, what, mp, g, run, keys, dead):
    """Every draw and test of each place of group g; how many these are."""
    walks = [[event_code(e) for _, _, e in p.walk()] for _, p in run.final]
    walks += [[]] * (mp.W - len(walks))
    ths.add('walk', '%s group %d, %d keys' % (what, g, keys),
            'map (λ (p : Place). map event_code p.walk) '
            '(placed_of (map_of %s) %d).places' % (text(crush.map_bytes(mp)), g),
            '(%s)' % ' ∷ '.join([numbers(w) for w in walks] + ['[]']), keys, mp,
            dead)
    return sum(map(len, walks))


def walk_maps(ths, count):
    seed, done, events = ARGS.seed * 100000 + 50000, 0, 0
    while done < count:
        seed += 1
        rng, d = small_doc(seed)
        mp = loaded(d.bytes())
        g = rng.randrange(mp.G)
        run, k, dead = keys_of(lambda: crush.Run(mp, g))
        if k > ARGS.keys:
            continue
        done += 1
        events += walk_theorem(ths, 'seed %d' % seed, mp, g, run, k, dead)
    if count:
        print('walks: %d maps, events compared: %d' % (count, events))


def map_theorems(ths, what, mp, table, line, keys, dead):
    """Group 0 of a map, an edit, which all groups of both maps need so many
    keys for, and the fill after it; how many events the walks have."""
    run, k, none = keys_of(lambda: crush.Run(mp, 0))
    ths.add('load', what, 'load_number %s' % text(crush.map_bytes(mp)), '0', 0, mp)
    place_theorem(ths, 'place', what, mp, 0, run.places, run.tries, k, none)
    events = walk_theorem(ths, what, mp, 0, run, k, none)
    res = edit_theorem(ths, what, mp, table, line, 230, keys, dead)
    fill_theorem(ths, what, res.map)
    return events


# ------------------------------------------------------- select through

def through_doc(rng, dead):
    """Cabinets of one or two drives under one root, or under two rooms, and a
    rule that goes through them; with dead, the drives of one cabinet take
    nothing."""
    rooms = rng.random() < 0.4
    d = gen.cabinets(rng, rng.choice([2, 3, 3]), [1, 1, 2], 1,
                     levels=2 if rooms else 1)
    held = {}
    for b, c in d.kids:
        held.setdefault(b, []).append(c)
    off = held[20] if dead else rng.sample(range(len(d.devs)), 1)
    for dev in d.devs:
        if dev[0] in off:
            dev[2] = 0 if dead else rng.choice([65536, 30000, 0])
    through = (5, rng.choice([1, 2, 2, 3]), 1)
    d.steps = gen.block(9, through)
    if rooms:
        d.steps = rng.choice([d.steps, gen.block(9, (3, 2, 2), through),
                              gen.block(9, (5, 2, 2))])
    return d


def through_maps(ths, count):
    seed, done = ARGS.seed * 100000, 0
    events = moves = 0
    causes, numbers_seen = {}, {}
    while done < count:
        seed += 1
        rng = random.Random('through:%d' % seed)
        want_dead = done % 2 == 1
        d = through_doc(rng, want_dead)
        mp = good_edits(rng, d, 1)
        dead = keys_of(lambda: crush.Run(mp, 0))[2]
        line = d.edits[0]
        both, dead_both = runs_cost(mp, edited(mp, line))
        table = crush.fresh_fill(mp)
        res = crush.edit(mp, table, line, 230)
        met = {mv[4] for mv in res.moves}
        if both > ARGS.keys or bool(dead) != want_dead:
            continue
        # every fourth map has a move with cause 03, nearly every other a move
        if (done % 4 == 0 and '03' not in met) or \
                (not met and rng.random() < 0.9):
            continue
        done += 1
        what = 'seed %d' % seed
        events += map_theorems(ths, what, mp, table, line, both, dead_both)
        for move in res.moves:
            causes[move[4]] = causes.get(move[4], 0) + 1
            moves += 1
        for _ in range(3):
            data = gen.e_through_rule(rng)
            number = loaded(data)
            number = number if isinstance(number, int) else 0
            numbers_seen[number] = numbers_seen.get(number, 0) + 1
            ths.add('load', what + ' a rule', 'load_number %s' % text(data),
                    str(number))
    if count:
        print('through: %d maps, events compared: %d, moves: %d, causes: %s, '
              'numbers of rules: %s'
              % (count, events, moves,
                 ' '.join('%s: %d' % c for c in sorted(causes.items())),
                 ' '.join('%d: %d' % c for c in sorted(numbers_seen.items()))))


# ---------------------------------------------------------------- trees

class Tree:
    """One tree bucket, as the reference's draw reads it of a map: children of
    any weight."""

    def __init__(self, bucket, items, weights):
        self.children, self.kinds = {bucket: items}, {bucket: crush.TREE}
        self.weight = dict(zip(items, weights)).get
        self.seed, self._nodes = crush.S, {}

    def blocks(self):
        return []


# as many children as a height has at most, one less and one more
SIZES = sorted({2 ** height + more for height in range(7)
                for more in (-1, 0, 1)} - {0, 65})


def tree_draws(ths, count):
    rng = random.Random('trees:%d' % ARGS.seed)
    none = 0
    for i in range(count):
        size = SIZES[i % len(SIZES)] if i < 2 * len(SIZES) else \
            rng.randint(1, 64)
        bucket = rng.randrange(256)
        items = sorted(rng.sample([*range(1024), *range(65536, 65792)], size))
        of = rng.choice([[1], [0, 0, 5], [0, 1, 65535], [1, 1048560],
                         [0, rng.randrange(1 << 20)], [0]])
        weights = [rng.choice(of) for _ in items]
        tree = Tree(bucket, items, weights)
        x, r = rng.randrange(65536), rng.choice([1, 3, rng.randrange(1, 2551)])
        what = '%d children' % size
        won = crush.draw(tree, x, r, bucket)
        none += won is None
        ths.add('tree', what, 'drawn_code (tree_of %d %d %d %d %s %s)'
                % (crush.S, x, r, 65536 + bucket, numbers(weights),
                   numbers(items)), str(0 if won is None else won + 1), 0, tree)
        root = crush.root_label(size)
        ths.add('tree', what, 'height_of %d' % size,
                str(root.bit_length() - 1), 0, tree)
        # a node on the way, or the root of a tree in which none is drawn
        label = rng.choice(crush.tree_path(tree, x, r, bucket) or [root])
        height = crush.half_span(label).bit_length() - 1
        place = crush.node_leaves(label)[0] >> height
        ths.add('tree', what, 'label_of %d %d' % (height, place), str(label), 0,
                tree)
        ths.add('tree', what, 'node_weight %s %d %d'
                % (numbers(weights), height, place),
                str(crush.node_weight(tree, bucket, label)), 0, tree)
    if count:
        print('trees: %d, %d of them without a child above 0' % (count, none))


def kind_maps(ths):
    """M with each kind of bucket, and in the forms without a kind or a
    weight."""
    for kind, level, number in ((0, ARGS.level, 5), (1, ARGS.level, 0),
                                (2, ARGS.level, 0), (3, ARGS.level, 5),
                                (255, ARGS.level, 5), (1, crush.TREES - 1, 2),
                                (1, crush.WRITTEN_WEIGHTS - 1, 2)):
        d = gen.flat(2, [(0, 1, 65536)], gen.block(0, (3, 2, 0)))
        d.kinds[0] = kind
        d.level = level
        mp = loaded(d.bytes())
        assert number == (mp if isinstance(mp, int) else 0)
        ths.add('load', 'kind %s' % kind, 'load_number %s' % text(d.bytes()),
                str(number), 0, None if number else mp)


def tree_doc(rng):
    """One tree of drives that is taken, or nested buckets, some of them
    trees."""
    if rng.random() < 0.5:
        of = rng.choice([[0, 0, 7], [1, 30], [0, 1, 300]])
        d = gen.flat(1, [(n, rng.choice(of), 65536) for n in rng.sample(
            range(1024), rng.choice([1, 2, 3, 5, 9, 17, 33, 64]))],
            gen.block(7, (3, rng.choice([1, 2, 3]), 0)), b=7)
        d.kinds[7] = crush.TREE
        return d
    d = gen.crowd(rng)
    d.G = 1
    d.kinds = {b: rng.choice([crush.STRAW, crush.TREE, crush.TREE])
               for b, _ in d.bks}
    d.steps = [[3 if s[0] == 2 else s[0]] + s[1:] for s in d.steps]
    return d


def tree_maps(ths, count):
    seed, done, events = ARGS.seed * 100000, 0, 0
    met = {}
    while done < count:
        seed += 1
        rng = random.Random('tree map:%d' % seed)
        d = tree_doc(rng)
        mp = loaded(d.bytes())
        if isinstance(mp, int) or len(d.bytes()) > 3000:
            continue
        device = rng.choice(d.devs)[0]
        line = b'22%04x%08x' % (device, rng.choice([0, 1, 40, 65535]))
        both, dead = runs_cost(mp, edited(mp, line))
        crush.STATS.clear()
        table = crush.fresh_fill(mp)
        res = crush.edit(mp, table, line, 230, False)
        # of four maps one has a move by two paths that part where neither ends
        # at the edited drive, one a move by a draw that finds none in one run,
        # and the others a move by a draw in a tree
        want = ('parted tree draw, another wins', 'parted draw, one none',
                'parted tree draw', 'parted tree draw')
        if both > ARGS.keys or res.number or \
                not crush.STATS[want[done % 4]]:
            continue
        done += 1
        for key in want[:3]:
            met[key] = met.get(key, 0) + crush.STATS[key]
        events += map_theorems(ths, 'seed %d' % seed, mp, table, line, both,
                               dead)
    if count:
        print('maps with trees: %d, events compared: %d, %s'
              % (count, events, ', '.join('%s: %d' % c
                                          for c in sorted(met.items()))))


# ---------------------------------------------------------------- blocks

def block_maps(ths, count):
    seed, done, events, led = ARGS.seed * 100000, 0, 0, 0
    # of how many maps an inner walk is so
    met = {'goes on below its item': blocks.retries_below,
           'meets held drives only': blocks.meets_held_only}
    causes, walked = {}, dict.fromkeys(met, 0)
    while done < count:
        seed += 1
        rng = random.Random('blocks:%d' % seed)
        mp = blocks.altered(crush, gen, rng, done, 3, 1)[1]
        line, = blocks.telling_edits(crush, rng, mp, 1)
        both, dead = runs_cost(mp, edited(mp, line))
        table = crush.fresh_fill(mp)
        crush.STATS.clear()
        res = crush.edit(mp, table, line, 230, False)
        across = crush.STATS['parting 03, held by an earlier block']
        # nearly every edit that is good has a cause 03 that leads to an
        # earlier block
        if both > ARGS.keys or \
                not (across or res.number or rng.random() < 0.1):
            continue
        done += 1
        led += across
        for what, is_so in met.items():
            walked[what] += any(is_so(crush, walk) for walk in
                                blocks.inner_walks(crush.Run(mp, 0)))
        for move in res.moves:
            causes[move[4]] = causes.get(move[4], 0) + 1
        events += map_theorems(ths, 'seed %d' % seed, mp, table, line, both,
                               dead)
    if count:
        print('blocks: %d maps, each with a list that change 5 alters, with an '
              'inner walk that %s; events compared: %d, causes: %s, a 03 that '
              'leads to an earlier block: %d'
              % (count, ', '.join('%s: %d' % c for c in walked.items()),
                 events, ' '.join('%s: %d' % c for c in sorted(causes.items())),
                 led))


# --------------------------------------------------------------- weights

def small_nested(rng, depth):
    """A nested map of at most 1,500 bytes."""
    while True:
        d = weights.nested(gen, rng, depth)
        if len(d.bytes()) <= 1500:
            return d


def put_theorems(ths, what, mp, line):
    """An edit put into a map; the map after it."""
    kind, device, value = crush.edit_form(line)
    after = edited(mp, line)
    change = 'put (map_of %s) (Some (%s %d %d))' % (
        text(crush.map_bytes(mp)),
        'Weight' if kind == '22' else 'Acceptance', device, value)
    written = text(crush.map_bytes(after))
    ths.add('put', what, 'map_text (%s)' % change, written, 0, mp)
    ths.add('put', what, 'map_of %s' % written, change, 0, mp)
    return after


def weight_maps(ths, count):
    numbers_seen, deep, others = {}, {}, 0
    for i in range(count):
        what = 'seed %d:%d' % (ARGS.seed, i)
        rng = random.Random('weights:' + what)
        depth = 2 + i % 4
        d = small_nested(rng, depth)
        mp = loaded(d.bytes())
        maps = [d] + [weights.with_written(d, way)
                      for way in rng.sample(weights.untrue(rng, d), 4)]
        maps += [weights.beside(crush, gen, rng, number, 1 + i % 3)
                 for number in (12, rng.choice(weights.EARLIER))]
        for other in maps:
            number = loaded(other.bytes())
            number = number if isinstance(number, int) else 0
            numbers_seen[number] = numbers_seen.get(number, 0) + 1
            ths.add('load', what, 'load_number %s' % text(other.bytes()),
                    str(number))
        for line in weights.edits(rng, d, 5):
            form = crush.edit_form(line)
            if form is None or not crush.edit_value_ok(mp, *form):
                continue
            mp = put_theorems(ths, what, mp, line)
            if form[0] == '22':
                above = weights.buckets_above(mp, form[1])
                deep[above] = deep.get(above, 0) + 1
            else:
                others += 1
    if count:
        print('weights: %d maps, numbers: %s; edits of a weight by the number '
              'of buckets above the drive: %s, of an acceptance: %d'
              % (count,
                 ' '.join('%d: %d' % c for c in sorted(numbers_seen.items())),
                 ' '.join('%d: %d' % c for c in sorted(deep.items())), others))


# -------------------------------------------------------------- ceilings

def ceiling_maps(ths, count):
    seed, done = ARGS.seed * 100000, 0
    numbers_seen, counted = {}, {}
    while done < count:
        seed += 1
        rng, d = small_doc(seed, done % 4 != 3)
        mp = loaded(d.bytes())
        keys, dead = runs_cost(mp)
        # of four maps one has a hole, one a step 5 and one a first-n select
        wanted = (True, crush.HOLE in crush.fresh_fill(mp), goes_through(mp),
                  True)[done % 4]
        # all groups are placed once, by an edit twice
        if keys > ARGS.keys // 2 or not wanted:
            continue
        done += 1
        for what, frames, table, drive in (*ceilings.right(crush, rng, mp),
                                           *ceilings.refused(crush, rng, mp)):
            number, groups, moves = ceilings.answer(crush, ARGS.level, frames,
                                                    table, drive)
            numbers_seen[number] = numbers_seen.get(number, 0) + 1
            if not number:
                counted[groups] = counted.get(groups, 0) + 1
            ths.add('ceiling', 'seed %d %s, %d keys' % (seed, what, keys),
                    'ceiling_of %s %s %d' % (text(frames), numbers(table),
                                            drive),
                    'record { number = %d; groups = %d; moves = %d }'
                    % (number, groups, moves), keys,
                    None if number == 14 else mp,
                    dead if number in (0, 19) else 0)
    if count:
        print('ceilings: %d maps, numbers: %s; good calls by the number of '
              'groups that hold the drive: %s'
              % (count,
                 ' '.join('%d: %d' % c for c in sorted(numbers_seen.items())),
                 ' '.join('%d: %d' % c for c in sorted(counted.items()))))


# ---------------------------------------------------------------- states

class StateCalls:
    """Equations of calls with named states, and what is told of them."""

    def __init__(self, ths):
        self.ths = ths
        self.seen, self.moved = {}, {}

    def count(self, call, number):
        key = call, number
        self.seen[key] = self.seen.get(key, 0) + 1

    def load(self, what, frames, lent):
        number, groups, places, after = states.load(crush, ARGS.level, frames,
                                                    lent)
        self.count('load', number)
        self.ths.add('load with states', what,
                     'load_of %s %s' % (text(frames), numbers(lent)),
                     'record { number = %d; groups = %d; places = %d; '
                     'states = %s }' % (number, groups, places,
                                        numbers(after)))

    def store(self, what, frames, lent, name):
        number, after = states.store(crush, calls, ARGS.level, frames, lent,
                                     name)
        self.count('store', number)
        self.ths.add('store', what,
                     'store_of %s %s %d' % (text(frames), numbers(lent), name),
                     'record { number = %d; states = %s }' % (number,
                                                              numbers(after)))
        return after

    def back(self, what, frames, table, lent, name, room, keys, mp):
        number, moves, after, filled, lines = states.back(
            crush, calls, ARGS.level, frames, table, lent, name, room)
        self.count('return', number)
        if not number:
            self.moved[moves] = self.moved.get(moves, 0) + 1
        self.ths.add(
            'return', what, 'return_of %s %s %s %d %s'
            % (text(frames), numbers(table), numbers(lent), name,
               text(b'\7' * room)),
            'record { number = %d; moves = %d; frames = %s; table = %s; '
            'space = %s }' % (number, moves, text(after), numbers(filled),
                              text(lines + b'\7' * (room - len(lines)))),
            keys if number in (0, 19, 20) else 0,
            None if number == 14 else mp)

    def told(self):
        return ', '.join('%s %s' % (call, ' '.join(
            '%d: %d' % (n, k) for (c, n), k in sorted(self.seen.items())
            if c == call)) for call in ('load', 'store', 'return'))


def refusals(at, what, rng, mp, kept, full, ninth, lent, room, keys):
    """Calls that are refused, by each question alone and with later ones."""
    frames, table = crush.map_bytes(mp), crush.fresh_fill(mp)
    good = states.words(kept, lent)
    name = rng.choice(kept)[0]
    broken = ceilings.damaged(crush, rng, mp)
    at.load(what + 'damaged', broken, good)
    at.store(what + 'a damaged map and a ninth name', broken, full, ninth)
    bad = list(states.bad_words(rng, mp, kept, lent))
    for told, words in bad:
        at.store(what + told, frames, words, rng.choice((name, ninth)))

    def back(told, *call):
        at.back(what + told, *call, keys, mp)

    back('a name not stored', frames, table, good, ninth, room)
    back('no state', frames, table, [0] + lent[1:], name, room)
    back('a damaged map', broken, table, good, name, room)
    for told, words in bad:
        back(told, frames, table, words, name, room)
    other = ceilings.altered(crush, rng, mp, table, min(mp.devices))
    back('a short table', frames, table[:-1], good, name, room)
    back('an altered table', frames, other, good, name, room)
    back('an altered table and no space', frames, other, good, name, 3)
    back('a name not stored and an altered table', frames, other, good, ninth,
         3)
    back('all no', broken, other[:-1], bad[0][1], ninth, 3)
    back('all no but the map', frames, other[:-1], bad[0][1], ninth, 3)
    back('all no but the map and the states', frames, other[:-1], good, ninth,
         3)


def behind_edits(at, what, rng, mp, lent, line, after, keys):
    """A store, an edit, a store, a return and one again, in a row."""
    first, second = states.named(rng, 2)
    before, table = crush.map_bytes(mp), crush.fresh_fill(mp)
    edited_, filled = crush.map_bytes(after), crush.fresh_fill(after)
    room = 23 * len(table)
    words = at.store(what + 'ahead of an edit', before, [0] + lent[1:], first)
    words = at.store(what + 'behind an edit', edited_, words, second)
    for told, name, frames, there in (
            ('behind ' + line.decode(), first, edited_, filled),
            ('to what stands', first, before, table),
            ('forth again', second, before, table)):
        at.back(what + told, frames, there, words, name, room, keys, mp)
    words = at.store(what + 'in place of the first', edited_, words, first)
    at.back(what + 'to the first, which is the second now', edited_, filled,
            words, first, room, keys, mp)


def state_maps(ths, count):
    seed, done = ARGS.seed * 100000, 0
    at = StateCalls(ths)
    while done < count:
        seed += 1
        rng, d = small_doc(seed, done % 4 != 3)
        mp = good_edits(rng, d, 1)
        kept = states.some(rng, mp, rng.choice((2, 2, 3)))
        line = d.edits[0]
        after = edited(mp, line)
        others = [mp.with_devices(values) for _, values in kept]
        keys = runs_cost(mp)[0] + max(runs_cost(o)[0] for o in others + [after])
        # of four maps one has a tree, one a step 5 and one a first-n select
        wanted = (True, crush.TREE in mp.kinds.values(), goes_through(mp),
                  True)[done % 4]
        if keys > ARGS.keys // 2 or len(mp.devices) > 24 or not wanted:
            continue
        moves = [sum(a != b for a, b in zip(crush.fresh_fill(mp),
                                            crush.fresh_fill(o)))
                 for o in others + [after]]
        # in three of four maps a return and the edit move something
        if done % 4 != 3 and not (any(moves[:-1]) and moves[-1]):
            continue
        done += 1
        what = 'seed %d ' % seed
        frames, table = crush.map_bytes(mp), crush.fresh_fill(mp)
        lent = states.space(rng, len(mp.devices))
        good = states.words(kept, lent)
        name = rng.choice(kept)[0]
        eight = states.some(rng, mp, 8)
        full = states.words(eight, lent)
        ninth = next(n for n in states.named(rng, 11)
                     if n not in dict(eight) and n not in dict(kept))
        at.load(what + 'good', frames, good)
        at.load(what + 'nothing to empty', frames, [0] + lent[1:])
        at.load(what + 'words that are no states', frames, lent)
        words = [0] + lent[1:]
        for n in (name, ninth, name):
            words = at.store(what + 'one of three', frames, words, n)
        at.store(what + 'a new name', frames, good, ninth)
        at.store(what + 'a name that is there', frames, good, name)
        at.store(what + 'a ninth name', frames, full, ninth)
        for i in (0, 4, 7):
            at.store(what + 'one of eight', frames, full, eight[i][0])
        at.store(what + 'an eighth name', frames,
                 states.words(eight[:-1], lent), ninth)
        for told, words in states.good_words(rng, mp, kept, lent):
            at.store(what + told, frames, words, ninth)
        room = 23 * max(moves) + rng.choice((0, 0, 5))
        for (n, _), k in zip(kept, moves):
            at.back(what + 'to %d' % n, frames,
                    table + [7] * rng.choice((0, 2)), good, n, room, keys, mp)
            if k:
                at.back(what + 'too little space', frames, table, good, n,
                        23 * k - 1, keys, mp)
        eighth = mp.with_devices(eight[-1][1])
        if runs_cost(eighth)[0] <= ARGS.keys // 2:
            at.back(what + 'to the eighth', frames, table, full, eight[-1][0],
                    23 * len(table), keys, mp)
        refusals(at, what, rng, mp, kept, full, ninth, lent, room, keys)
        behind_edits(at, what, rng, mp, lent, line, after, keys)
    if count:
        print('states: %d maps, numbers: %s; good returns by the number of '
              'moves: %s' % (count, at.told(), ' '.join(
                  '%d: %d' % c for c in sorted(at.moved.items()))))


# ------------------------------------------------------------- giving up

def one_cabinet(acceptance):
    """One drive in one cabinet, and a rule that goes through it."""
    d = gen.Doc()
    d.devs, d.bks = [[0, 1, acceptance]], [[0, 1], [1, 2]]
    d.kids = [[0, 0], [1, 65536]]
    d.steps = gen.block(1, (5, 1, 1))
    return loaded(d.bytes())


def giving_up(root):
    """The crate with the two placings of one cabinet; the dead one's is put
    together of its fifty turns, each an equation, since all in one take too
    many steps."""
    opened = open(os.path.join(CRATE, 'specs', 'Open.antt')).read()
    used = {}
    for mod, names in re.findall(r'specs\.(\w+)\.\{([^}]*)\}', opened):
        used.setdefault(mod, []).extend(names.split(', '))
    head = header()[0]
    for names in used.values():
        names[:] = [n for n in names if not re.search(r'[{ ]%s[,}]' % n, head)]
    more = 'use Rattle.std.proofs.Common.{◌∙◌}\n'
    more += ''.join('use %s%s.{%s}\n' % (OF, mod, ', '.join(names))
                   for mod, names in used.items() if names)
    more += ''.join('use %s%s.{%s}\n' % (OF, mod, names) for mod, names in (
        ('declared.Mode.TheVariants', 'Through'),
        ('declared.State', 'State'), ('declared.Turn.TheVariants', 'Fail'),
        ('View', 'View'), ('Walk', 'RankEvents, TurnEvents')))
    head, computing = header(more)
    folded = re.search(r'(?m)^unfolding (.*)$', opened).group(1)
    folded = ' '.join(n for n in folded.split() if n != 'rank_of')
    places, tries = crush.rule(one_cabinet(65536), 0)
    none, most = crush.rule(one_cabinet(0), 0)
    answer = 'record { number = 0; places = 1; tries = %d; row = %s }'
    turns = ''.join('turn%d : (turn (at %d)).turn ≡ Fail (at %d)\n%s\n'
                    'turn%d = refl\n\n' % (k, k, k + 1, computing, k)
                    for k in range(50))
    chain = ' ∙ '.join('step %d (at %d) (at %d) turn%d' % (49 - k, k, k + 1, k)
                       for k in range(50))
    write_crate(root, 'giving_up', head + """
live-cabinet : place_of %s 0 (7 ∷ []) ≡ %s
%s
live-cabinet = refl

abbrev dead : List ℕ
dead = %s

abbrev seen : View
seen = view_of (map_of dead)

abbrev turn : State → TurnEvents
turn s = turn_of seen 0 Through 1 1 (test_of Through seen 0 1 []) 1 1 s

abbrev rank : ℕ → State → RankEvents
rank k s = rank_from seen 0 Through 1 1 (test_of Through seen 0 1 []) 1 1 k s

-- the rank after k failures
abbrev at : ℕ → State
at k = record { at = 1; fr = k; f = k; inner = 50 * k }

step : (k : ℕ) (s z : State) → (turn s).turn ≡ Fail z → (rank (suc k) s).ranked ≡ (rank k z).ranked
unfolding rank_from on_turn after_turn onward
step k s z h = rw h

%sgives-up : (rank_of seen 0 Through 1 1 [] 1 1 0).ranked ≡ record { item = 65535; entry = 65535; fr = 50; f = 50; inner = 2500 }
unfolding rank_of rank_by rank_start rank_from rank_end
gives-up = %s

dead-cabinet : place_of dead 0 (7 ∷ []) ≡ %s
unfolding bytes_to %s
dead-cabinet = rw gives-up
""" % (text(crush.map_bytes(one_cabinet(65536))),
       answer % (tries, numbers(places)), computing,
       text(crush.map_bytes(one_cabinet(0))), turns, chain,
       answer % (most + ARGS.wrong, numbers(none)), folded))
    print('giving up: %d tries live, %d tries dead' % (tries, most))


# ------------------------------------------------------------- checking

def write_crate(root, name, check):
    base = os.path.join(root, 'crates', name)
    os.makedirs(os.path.join(base, 'src'))
    os.makedirs(os.path.join(base, 'specs'))
    for path, held in (
            (('src', 'lib.rt'), '// Written by evaluate_definitions.py: no code.\n'),
            (('specs', 'Lib.antt'), 'pub mod Check\n'),
            (('specs', 'Check.antt'), check)):
        with open(os.path.join(base, *path), 'w') as f:
            f.write(held)


def rt_check(root, name):
    return subprocess.run(['rt', 'check', '--jobs', '1'],
                          cwd=os.path.join(root, 'crates', name),
                          stdout=subprocess.PIPE, stderr=subprocess.STDOUT)


def run(ths, root):
    head, opened = header()
    crates = []
    items = ths.items
    for i in range(0, len(items), ARGS.per):
        name = 'check%d' % (i // ARGS.per)
        crates.append((name, items[i:i + ARGS.per]))
        write_crate(root, name, head + '\n' + ''.join(
            '%s\n%s\n%s = refl\n\n' % (t, opened, n)
            for n, _, _, t, _ in items[i:i + ARGS.per]))
    with open(os.path.join(root, 'crates.txt'), 'w') as f:
        f.write('definitions:\n')
        for name in sorted(os.listdir(os.path.join(root, 'crates'))):
            if name != 'definitions':
                f.write('%s: definitions\n' % name)
    held, held_of = {}, {}
    total = {}
    failed = []
    limit = set()
    began = time.time()
    cpu = resource.getrusage(resource.RUSAGE_CHILDREN).ru_utime
    for name, its in crates:
        at = time.time()
        p = rt_check(root, name)
        out = p.stdout.decode(errors='replace')
        bad = set(re.findall(r'specs/Check\.antt:\d+:\d+: error: `(t\d+)`', out))
        bad |= set(re.findall(r'in `(t\d+)`', out))
        limit |= set(re.findall(r'error: `(t\d+)`: .*(?:ran out of|outgrew the '
                                r'memory limit|stopped at the step limit)', out))
        if p.returncode and not bad:
            print(out[-3000:])
            raise SystemExit('evaluate_definitions.py: rt check failed, with no theorem named')
        if not p.returncode and bad:
            raise SystemExit('evaluate_definitions.py: rt check passed and named a theorem')
        for n, kind, keys, t, has in its:
            total[kind] = total.get(kind, 0) + 1
            if n in bad:
                failed.append((n, kind, t))
            else:
                held[kind] = held.get(kind, 0) + 1
                for part in has:
                    held_of[part] = held_of.get(part, 0) + 1
        if ARGS.verbose:
            now = resource.getrusage(resource.RUSAGE_CHILDREN)
            print('%s: %d equations, %d refused, %d keys, %.1f s (CPU %.1f s, '
                  'so far at most %d MB)' % (
                      name, len(its), len(bad), sum(i[2] for i in its),
                      time.time() - at, now.ru_utime - cpu,
                      now.ru_maxrss // 1024))
            cpu = now.ru_utime
            sys.stdout.flush()
    up = None
    if ARGS.giving_up:
        at = time.time()
        p = rt_check(root, 'giving_up')
        up = p.returncode == 0
        print('one cabinet, live and dead: %s, %.0f s'
              % ('held' if up else 'refused', time.time() - at))
        if not up and not ARGS.wrong:
            print(p.stdout.decode(errors='replace')[-3000:])
    if ARGS.keep:
        print('kept', root)
    else:
        shutil.rmtree(root)
    if not ARGS.wrong:
        for n, kind, t in failed:
            print('TOO LONG' if n in limit else 'REFUSED', n, kind, t[:300])
    print('%d equations in %d crates, %.0f s' % (len(items), len(crates),
                                                 time.time() - began))
    print('  '.join('%s: %d of %d' % (k, held.get(k, 0), total[k])
                    for k in sorted(total)))
    ok = sum(held.values())
    if ARGS.wrong:
        print('wrong values: %d refused, %d taken, %d without a verdict'
              % (len(failed) - len(limit), ok, len(limit)))
        return 1 if ok or up or limit else 0
    print('held: %d of %d; %s'
          % (ok, len(items), ', '.join('with %s: %d' % (part, held_of.get(
              part, 0)) for part in (STEP_5, NONE, TREE, SHARED))))
    return 1 if failed or up is False else 0


def main():
    root = tempfile.mkdtemp(prefix='defs-check-')
    copy = os.path.join(root, 'crates', 'definitions')
    shutil.copytree(CRATE, copy, ignore=shutil.ignore_patterns('out'))
    open_names()
    ths = Theorems()
    leaves(ths, ARGS.leaves)
    valid_maps(ths, ARGS.maps)
    edit_maps(ths, ARGS.edits)
    damaged_maps(ths, ARGS.damaged)
    tie_maps(ths, ARGS.ties)
    walk_maps(ths, ARGS.walks)
    if ARGS.level >= crush.THROUGH_STEP:
        through_maps(ths, ARGS.through)
    if ARGS.level >= crush.TREES and ARGS.trees:
        tree_draws(ths, ARGS.trees)
        kind_maps(ths)
        tree_maps(ths, (ARGS.trees + 4) // 5)
    if ARGS.level >= crush.ONE_PLACE:
        block_maps(ths, ARGS.blocks)
    if ARGS.level >= crush.WRITTEN_WEIGHTS:
        weight_maps(ths, ARGS.weights)
    ceiling_maps(ths, ARGS.ceilings)
    if ARGS.level >= crush.STATES:
        state_maps(ths, ARGS.states)
    if ARGS.giving_up:
        giving_up(root)
    sys.exit(run(ths, root))


main()
