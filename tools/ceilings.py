"""The ceiling of what an edit of an acceptance moves (document 02, change 7): calls that ask for it, and what they answer.

`crush` is the module of the CRUSH by another hand that a tool compares with."""


def holders(mp, table, drive):
    """How many groups of a table have a drive in their list."""
    return sum(drive in table[g * mp.W:(g + 1) * mp.W] for g in range(mp.G))


def answer(crush, level, frames, table, drive):
    """The number, the groups and the moves that a call answers."""
    mp = crush.load(frames, level)
    if isinstance(mp, int):
        return 14, 0, 0
    size = mp.G * mp.W
    questions = (
        (16, lambda: len(table) >= size),
        (17, lambda: all(step[0] != crush.FIRSTN for step in mp.steps)),
        (18, lambda: drive in mp.devices),
        (19, lambda: table[:size] == crush.fresh_fill(mp)),
    )
    number = next((number for number, is_so in questions if not is_so()), 0)
    groups = 0 if number else holders(mp, table, drive)
    return number, groups, mp.W * groups


# ---- calls: of each what is told of it, the frames, the table and the drive

def right(crush, rng, mp):
    """Calls that are answered, unless a select of the map is first-n."""
    frames, table = crush.map_bytes(mp), crush.fresh_fill(mp)
    held = sorted(set(table) - {crush.HOLE})
    rest = sorted(set(mp.devices) - set(table))
    for drive in rng.sample(held, min(2, len(held))):
        yield "held", frames, table, drive
    for drive in rng.sample(rest, min(1, len(rest))):
        yield "held by none", frames, table, drive
    drive = rng.choice(held or rest)
    # what lies behind counts for nothing, also where it is the drive
    yield "a longer table", frames, table + [drive, 7, drive][:rng.randint(1, 3)], drive


def damaged(crush, rng, mp):
    """The frames of a map, with one byte altered so that they are refused."""
    frames = crush.map_bytes(mp)
    while True:
        at = rng.randrange(len(frames))
        other = frames[:at] + rng.choice((b"0", b"1", b"f", b"g", b"\n", b"")) + frames[at + 1:]
        if isinstance(crush.load(other, mp.level), int):
            return other


def altered(crush, rng, mp, table, drive):
    """The table with one place altered, with two places of a list exchanged, or as it is without the drive."""
    at = rng.randrange(len(table))
    place = rng.choice(sorted({crush.HOLE, 0, drive, 1024, table[at] ^ 1, table[at] ^ 256} - {table[at]}))
    ways = [table[:at] + [place] + table[at + 1:]]
    if at % mp.W:
        ways.append(table[:at - 1] + [table[at], table[at - 1]] + table[at + 1:])
    ways.append(crush.fresh_fill(mp.with_device(drive, acceptance=0)))
    return rng.choice([way for way in ways if way != table])


def refused(crush, rng, mp):
    """Calls that are refused: by each question alone, and by a question whose successors are answered no too."""
    frames, table = crush.map_bytes(mp), crush.fresh_fill(mp)
    drive = rng.choice(sorted(set(table) - {crush.HOLE}) or sorted(mp.devices))
    absent = rng.choice([number for number in range(1025) if number not in mp.devices])
    # 16 bits of the second are a drive of the map, and the first stands in a list with a hole
    beyond = rng.choice((crush.HOLE, drive + 65536 * rng.choice((1, 256, 65535)), drive + 1024, 2 ** 32 - 1))
    other = altered(crush, rng, mp, table, drive)
    yield "a damaged map", damaged(crush, rng, mp), table, drive
    yield "a damaged map and all else", damaged(crush, rng, mp), other[:-1], absent
    yield "a short table", frames, table[:-1], drive
    yield "a short table, altered, and an absent drive", frames, other[:-1], absent
    yield "no table", frames, [], drive
    yield "an absent drive", frames, table, absent
    yield "a number beyond the drives", frames, table, beyond
    yield "an absent drive and an altered table", frames, other, rng.choice((absent, beyond))
    yield "an altered table", frames, other, drive
    yield "an altered table, longer", frames, altered(crush, rng, mp, table, drive) + [drive], drive
