"""The weights that buckets are written with: nested maps, ways to write a weight that is not the sum, and edits of drives deep in a map.

`crush` and `gen` are the modules of the CRUSH by another hand that a tool compares with."""
import copy

BASE = 65536  # a bucket's item number is this and its own number
SPELLED = 2 ** 32  # so many weights can be written


def buckets_above(mp, drive):
    """How many buckets are above a drive."""
    above = {child: BASE + bucket for bucket, children in mp.children.items() for child in children}
    count, item = 0, drive
    while item in above:
        count, item = count + 1, above[item]
    return count


# ---- nested maps

def nested(gen, rng, depth):
    """Buckets in buckets, so many deep, of both kinds. Besides there are a bucket that is taken by no step and a drive, neither of them a child."""
    doc = gen.Doc()
    doc.G = rng.choice((1, 2, 3))
    numbers, drives = rng.sample(range(256), 255), rng.sample(range(1024), 255)
    of = rng.choice(((1, 2, 300), (0, 1, 65535), (65535,), (0, 0, 7), (256, 4096, 40000)))

    def drive():
        number = drives.pop()
        doc.devs.append([number, rng.choice(of), rng.choice((65536, 65536, 65536, 40000, 0))])
        return number

    def bucket(type_):
        number = numbers.pop()
        doc.bks.append([number, type_])
        children = [bucket(type_ - 1) if type_ > 1 else drive()]
        for _ in range(rng.choice((0, 1, 1, 2))):
            children.append(bucket(type_ - 1) if type_ > 1 and rng.random() < 0.6 else drive())
        doc.kids += [[number, child] for child in children]
        return BASE + number

    top = bucket(depth) - BASE
    bucket(rng.choice((1, 1, 2)))
    drive()
    doc.sort()
    gen.choose_kinds(rng, doc)
    rules = [gen.block(top, (3, rng.choice((1, 2, 3)), 0))]
    if depth > 1:
        rules += [gen.block(top, (5, 2, rng.randint(1, depth - 1))), gen.block(top, (3, 2, rng.randint(1, depth - 1)), (3, 1, 0))]
    doc.steps = rng.choice(rules) + rng.choice(([], [], rules[0]))
    return doc


def crowded(gen):
    """A map all of whose 2,850 places move when drive 0 goes, one more than program `fill` lends space for, so that the first of its edits is
    refused."""
    doc = gen.Doc()
    doc.G = 2850
    doc.devs = [[0, 65535, 65536], [1, 0, 65536], [2, 5, 65536]]
    doc.bks = [[0, 1], [1, 1], [2, 2], [3, 3]]
    doc.kids = [[0, 0], [1, 1], [2, BASE], [2, BASE + 1], [3, BASE + 2]]
    doc.steps = gen.block(3, (3, 1, 0))
    doc.edits = [b"22000000000000", b"22000200000007", b"22000100000001", b"22000000007fff", b"22000100010000"]
    return doc


# ---- weights that are not the sums

def children_of(doc, bucket):
    """The numbers of the buckets that are children of a bucket."""
    return [child - BASE for holder, child in doc.kids if holder == bucket and child >= BASE]


def untrue(rng, doc):
    """Ways to write weights that are not all the sums, by bucket: one of them alone, in every bucket; one with those above it, each of which is
    then the sum of what is written below it; two of one bucket such that their sum stays right, also where it has to wrap around at 2^32."""
    sums = {bucket: doc.weight(bucket, 0) for bucket, _ in doc.bks}
    holder = {child: bucket for bucket in sums for child in children_of(doc, bucket)}
    ways = []
    for bucket, weight in sums.items():
        values = {weight + 1, weight - 1, 0, SPELLED - 1, weight + BASE, 2 * weight, weight + (1 << rng.randrange(32)), rng.randrange(SPELLED)}
        ways += [{bucket: value % SPELLED} for value in rng.sample(sorted(values - {weight}), 2)]
        more, above = {bucket: weight + 5}, bucket
        while above in holder:
            above = holder[above]
            more[above] = sums[above] + 5
        ways.append(more)
        one, *others = children_of(doc, bucket) or [None]
        for other in others[:1]:
            for by in (1, 1 << 31, sums[one] + 1):
                ways.append({one: (sums[one] - by) % SPELLED, other: (sums[other] + by) % SPELLED})
            ways.append({one: sums[other], other: sums[one]})
    ways += [dict.fromkeys(sums, 0), {bucket: weight + 1 for bucket, weight in sums.items()}]
    return [way for way in ways if any(sums[bucket] != value for bucket, value in way.items())]


def with_written(doc, way):
    """The map with these weights written."""
    other = copy.deepcopy(doc)
    other.written = way
    return other


# the questions that come before the one of the weights, as the generator has a map answer no
EARLIER = (5, 6, 7, 8, 9, 22, 10, 11, 21, 12)


def beside(crush, gen, rng, number, depth):
    """A map that answers the earlier question no, and in which one weight or all are not the sum besides."""
    while True:
        doc = nested(gen, rng, depth)
        if getattr(gen, f"dmg{number}")(rng, doc) and crush.load(doc.bytes(), doc.level) == number:
            buckets = [bucket for bucket, _ in doc.bks]
            return with_written(doc, {bucket: doc.weight(bucket, 0) + 1 for bucket in rng.choice((buckets, [rng.choice(buckets)]))})


# ---- edits

def edits(rng, doc, count):
    """Edits, most of them of the weight of a drive that is in a bucket: to the one it has, to none, to the most, to others. The rest are of the drive
    that is in none, of an acceptance, or refused."""
    now = {number: weight for number, weight, _ in doc.devs}
    inside = [child for _, child in doc.kids if child < BASE]
    outside = [number for number in now if number not in inside]
    lines = []
    for _ in range(count):
        drive = rng.choice(inside)
        turn = rng.random()
        if turn < 0.75:
            drive = rng.choice(outside) if turn < 0.1 else drive
            now[drive] = rng.choice((now[drive], 0, 65535, 1, now[drive] // 2, rng.randrange(BASE)))
            lines.append(b"22%04x%08x" % (drive, now[drive]))
        elif turn < 0.88:
            lines.append(b"21%04x%08x" % (drive, rng.choice((0, 32768, 65536))))
        else:
            absent = rng.choice([number for number in range(1024) if number not in now])
            lines.append(rng.choice((b"22%04x%08x" % (drive, BASE), b"22%04x%08x" % (absent, 1), b"22%04xffffffff" % drive, b"22%04x0000001" % drive)))
    return lines
