"""Maps for the benchmark: sites, cabinets and drives under one root, with a rule that puts copies on different sites."""
import pathlib

TAKE, INDEPENDENT, EMIT, THROUGH = 1, 3, 4, 5
STRAW, TREE = 1, 2
FULL = 65536
BASE = 65536  # a bucket's item number is this and its own number


def weights_of(devices, buckets, links):
    """The weight of each item by its number. Buckets of smaller types come first: the others have them as children."""
    weights = {n: weight for n, weight, _ in devices}
    for number, _, _ in sorted(buckets, key=lambda bucket: bucket[1]):
        weights[BASE + number] = sum(weights[child] for bucket, child in links if bucket == number)
    return weights


def text_of(groups, devices, buckets, links, steps):
    """The frames of a map. devices: (number, weight, acceptance); buckets: (number, type, kind); links: (bucket, child); steps: (step, count,
    type, bucket)."""
    weights = weights_of(devices, buckets, links)
    lines = [f"00{groups:08x}"]
    lines += [f"01{n:04x}{weight:08x}{acceptance:08x}" for n, weight, acceptance in devices]
    lines += [f"02{n:04x}{type_:02x}{kind:02x}{weights[BASE + n]:08x}" for n, type_, kind in buckets]
    lines += [f"03{bucket:04x}{child:08x}" for bucket, child in sorted(links)]
    lines += [f"04{step:02x}{count:02x}{type_:02x}{bucket:04x}" for step, count, type_, bucket in steps]
    lines.append(f"05{len(lines):04x}")
    return "".join(line + "\n" for line in lines)


def nested(groups, counts, weight=lambda n: 4096, acceptance=lambda n: FULL, copies=3, through=False, kind=STRAW, more=0):
    """Buckets in buckets, so many in each by level, at the last level drives; the copies lie in different buckets below the root, or with
    through in different buckets of drives; with more, a second block has so many anywhere. The buckets of drives are of the kind, all others
    straws."""
    devices, buckets, links = [], [], []

    def bucket(level):
        number = len(buckets)
        last = level + 1 == len(counts)
        buckets.append((number, len(counts) - level, kind if last else STRAW))
        for _ in range(counts[level]):
            if last:
                n = len(devices)
                devices.append((n, weight(n), acceptance(n)))
                links.append((number, n))
            else:
                links.append((number, BASE + bucket(level + 1)))
        return number

    bucket(0)
    selects = [(THROUGH, copies, 1, 0)] if through else [(INDEPENDENT, copies, len(counts) - 1, 0), (INDEPENDENT, 1, 0, 0)]
    steps = [(TAKE, 0, 0, 0), *selects, (EMIT, 0, 0, 0)]
    if more:
        steps += [(TAKE, 0, 0, 0), (INDEPENDENT, more, 0, 0), (EMIT, 0, 0, 0)]
    return text_of(groups, devices, buckets, links, steps)


def shelves(groups, count, kind, drives=64):
    """So many buckets of drives, each taken for one drive: of a group as many draws, all of them in such buckets."""
    devices = [(n, mixed(n), FULL) for n in range(drives * count)]
    links = [(n // drives, n) for n, _, _ in devices]
    steps = [step for b in range(count) for step in ((TAKE, 0, 0, b), (INDEPENDENT, 1, 0, 0), (EMIT, 0, 0, 0))]
    return text_of(groups, devices, [(b, 1, kind) for b in range(count)], links, steps)


def one_shelf(drives, copies, weight=lambda n: 1):
    """One bucket of drives, of which the copies are taken."""
    devices = [(n, weight(n), FULL) for n in range(drives)]
    steps = [(TAKE, 0, 0, 0), (INDEPENDENT, copies, 0, 0), (EMIT, 0, 0, 0)]
    return text_of(1024, devices, [(0, 1, STRAW)], [(0, n) for n in range(drives)], steps)


def heavy(n):
    """All but a trace of the weight is drive 0's."""
    return 65535 if n == 0 else 1


def mixed(n):
    """Drives of four sizes, in no order that the hierarchy has."""
    return (2048, 4096, 8192, 16384)[n * 7 % 13 % 4]


def half(n):
    """Every second drive takes nothing."""
    return FULL if n % 2 == 0 else 0


def dead(cabinets):
    """Of every so many cabinets of sixteen drives the last takes nothing."""
    return lambda n: 0 if n // 16 % cabinets == cabinets - 1 else FULL


ARCHIVE = pathlib.Path(__file__).resolve().parent.parent / "examples" / "archive.map"

# the maps of the table: 1,024 drives each, or 960 where there are as many buckets as can be; buckets of 3, 7 and 11 children, of which no number is
# a multiple of those that are hashed at once; and the example archive of 224 drives
COMPARED = [
    ("equal", "4 x 16 x 16, equal weights", lambda: nested(1024, (4, 16, 16))),
    ("mixed", "4 x 16 x 16, mixed weights", lambda: nested(1024, (4, 16, 16), weight=mixed)),
    ("wide", "16 x 64, buckets of 64", lambda: nested(1024, (16, 64))),
    ("trees", "the same, the buckets of 64 as trees", lambda: nested(1024, (16, 64), kind=TREE)),
    ("half", "4 x 16 x 16, half at acceptance 0", lambda: nested(1024, (4, 16, 16), acceptance=half)),
    ("through", "4 x 16 x 16, through 3 cabinets", lambda: nested(1024, (4, 16, 16), through=True)),
    ("dead", "the same, 4 of the 64 cabinets dead", lambda: nested(1024, (4, 16, 16), acceptance=dead(16), through=True)),
    ("quarter", "the same, 16 of the 64 cabinets dead", lambda: nested(1024, (4, 16, 16), acceptance=dead(4), through=True)),
    ("buckets", "15 x 16 x 4, 256 buckets", lambda: nested(1024, (15, 16, 4))),
    ("elevens", "11 x 11 x 7, equal weights", lambda: nested(1024, (11, 11, 7))),
    ("sevens", "7 x 11 x 3, mixed weights", lambda: nested(1024, (7, 11, 3), weight=mixed)),
    ("archive", "examples/archive.map", ARCHIVE.read_text),
]

# not against a build from before change 5, which gives other lists: the drive that the second block draws first is always held
BLOCKS = ("blocks", "4 x 16 x 16, and a copy more anywhere", lambda: nested(1024, (4, 16, 16), more=1))

# one draw among 64 children: the number of draws that a fill makes, and a map for each kind of bucket. A tree of one child makes no hash, so
# that its fill is what all but the draws takes
DRAWS = 4096 * 5
DRAWN = [("straw", lambda: shelves(4096, 5, STRAW)), ("tree", lambda: shelves(4096, 5, TREE)), ("alone", lambda: shelves(4096, 5, TREE, 1))]

# edits that move many places, or slow the fill down: (name, what is edited, the edit, map)
EDITED = [
    ("few", "4 x 16 x 16, a drive gets 16 times its weight", "2200000000ffff", lambda: nested(1024, (4, 16, 16))),
    ("many", "4 x 4, a drive gets 16 times its weight", "2200000000ffff", lambda: nested(1024, (4, 4))),
    ("last", "16 drives for 16 places, one dies", "21000000000000", lambda: one_shelf(16, 16)),
    ("rise", "64 drives of weight 1, one gets 65,535", "2200000000ffff", lambda: one_shelf(64, 16)),
    ("fall", "the same, the heavy one gets 0", "22000000000000", lambda: one_shelf(64, 16, weight=heavy)),
    ("trace", "8 x 8 through 3, all but a trace of the weight dies", "21000000000000", lambda: nested(1024, (8, 8), weight=heavy, through=True)),
]

# how fill's time grows: (what grows, [(its number, map)])
GROWTH = [
    ("groups", "4 x 16 x 16 drives", [(g, lambda g=g: nested(g, (4, 16, 16))) for g in (256, 512, 1024, 2048, 4096)]),
    ("drives", "4 sites, 16 drives a cabinet, 1,024 groups", [(64 * k, lambda k=k: nested(1024, (4, k, 16))) for k in (1, 2, 4, 8, 16)]),
    ("children of a bucket", "4 x 4 cabinets, 1,024 groups", [(c, lambda c=c: nested(1024, (4, 4, c))) for c in (4, 8, 16, 32, 64)]),
]
