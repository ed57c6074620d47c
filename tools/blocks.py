"""Rules of two or more blocks over common drives: which maps have one, what change 5 does to their lists, and maps made for it.

`crush` and `gen` are the modules of the CRUSH by another hand that a tool compares with."""
import itertools


def drives_beneath(crush, mp, bucket):
    """The numbers of the drives in a bucket, nested buckets included."""
    for child in mp.children[bucket]:
        if crush.is_device(child):
            yield child
        else:
            yield from drives_beneath(crush, mp, child - crush.BUCKET_BASE)


def share_drives(crush, mp):
    """Whether two blocks of the rule take buckets that have a drive in common."""
    taken = [set(drives_beneath(crush, mp, bucket)) for bucket, _ in mp.blocks()]
    return any(one & other for one, other in itertools.combinations(taken, 2))


def unheld(crush, mp):
    """The map at the level before change 5, by which two blocks may hold one drive."""
    return crush.Map(mp.G, mp.devices, mp.buckets, mp.children, mp.steps, crush.ONE_PLACE - 1, mp.kinds, mp.seed)


def differs(crush, mp):
    """Whether change 5 alters a list of the table."""
    return crush.fresh_fill(mp) != crush.fresh_fill(unheld(crush, mp))


def inner_walks(run):
    """The draws and tests of each inner walk that is made for a place of the list."""
    for _, place in run.final:
        yield from (list(events) for inner, events in itertools.groupby(place.own, lambda event: event.inner) if inner)


def is_held(crush, event):
    return isinstance(event, crush.Test) and event.result == crush.HELD


def retries_below(crush, walk):
    """Whether an inner walk goes on below the item that it begins at, in the bucket that a held drive was drawn from."""
    return any(is_held(crush, event) and then.bucket != walk[0].bucket for event, then in zip(walk, walk[1:]))


def meets_held_only(crush, walk):
    """Whether an inner walk gives up, and every drive that it met is held."""
    return sum(is_held(crush, event) for event in walk) == crush.MAX_FAILS


# ---- maps made for it: a shape has its buckets and its rule, whose selects of drives are of the step given

def one_bucket(gen, rng, step):
    """A bucket of about as many drives as the blocks have places."""
    counts = rng.choice([(1, 1), (2, 1), (2, 2), (1, 3), (2, 1, 1), (1, 2, 2)])
    drives = rng.sample(range(1024), max(2, sum(counts) + rng.choice((-1, 0, 1, 1))))
    doc = gen.flat(1, [(n, rng.choice((1, 5, 5, 20)), 65536) for n in drives], [])
    gen.choose_kinds(rng, doc)
    return doc, sum((gen.block(0, (step, n, 0)) for n in counts), [])


def cabinets(gen, rng, step):
    """Cabinets of drives: blocks over drives of any, of some or of one cabinet, and through them."""
    doc = gen.cabinets(rng, rng.choice((2, 3)), [1, 2, 2, 3], 1, levels=rng.choice((1, 1, 2)))
    rule = []
    for _ in range(rng.choice((2, 2, 3))):
        n = rng.choice((1, 2, 2))
        rule += rng.choice((gen.block(9, (step, n, 0)), gen.block(9, (3, 2, 1), (step, n, 0)), gen.block(20, (step, n, 0)), gen.block(9, (5, n, 1))))
    return doc, rule


def shelves(gen, rng, step):
    """Through cabinets in which drives lie on shelves, some of them emitted before."""
    doc = gen.shelves(rng, rng.choice((1, 2)), 2, rng.choice((1, 2, 2)), 1)
    return doc, gen.block(9, (step, rng.choice((1, 2, 3)), 0)) + gen.block(9, (5, rng.choice((1, 1, 2)), 2))


def emptied(gen, rng, step):
    """Through cabinets, most of which have one drive, after some drives have been emitted."""
    doc = gen.cabinets(rng, 3, [1, 1, 1, 2], 1, levels=rng.choice((1, 2)))
    return doc, gen.block(9, (step, rng.choice((1, 1, 2)), 0)) + gen.block(9, (5, rng.choice((1, 2)), 1))


SHAPES = (one_bucket, cabinets, shelves, emptied)


def altered(crush, gen, rng, index, each, groups):
    """A map whose table change 5, which has to count, alters, as the generator and as load have it. Its shape goes by the index, and of so many maps
    of a shape the last selects first-n. Some of the drives take less than all."""
    turn, shape = divmod(index, len(SHAPES))
    step = crush.FIRSTN if turn % each == each - 1 else crush.INDEP
    while True:
        doc, doc.steps = SHAPES[shape](gen, rng, step)
        doc.G = groups
        for drive in doc.devs:
            if rng.random() < 0.1:
                drive[2] = rng.choice((0, 30000, 60000))
        mp = crush.load(doc.bytes(), doc.level)
        if differs(crush, mp):
            return doc, mp


def possible_edits(rng, mp):
    """Edits of a map's drives, in any order: a drive takes none or all; it has no weight, half or four times as much."""
    lines = []
    for drive, (weight, acceptance) in mp.devices.items():
        lines += [b"21%04x%08x" % (drive, value) for value in (0, 65536) if value != acceptance]
        lines += [b"22%04x%08x" % (drive, value) for value in (0, weight // 2, 4 * weight + 1) if value != weight]
    rng.shuffle(lines)
    return lines


def telling_edits(crush, rng, mp, count):
    """So many edits, one after another. Each is the first of twelve with a cause 03 that leads to an earlier block, or the last of them."""
    table, lines = crush.fresh_fill(mp), []
    for _ in range(count):
        for line in possible_edits(rng, mp)[:12]:
            crush.STATS.clear()
            done = crush.edit(mp, table, line, crush.MOVE_BYTES * len(table), False)
            if crush.STATS["parting 03, held by an earlier block"]:
                break
        lines.append(line)
        mp, table = done.map, done.table
    return lines
