#!/usr/bin/env python3
"""Makes the cases of program `vectors` anew: maps with edits and other calls, and what a CRUSH by another hand gives for them.

make_vectors.py --oracle DIR [--level L]: DIR holds that CRUSH as crush.py, calls.py, fill.py and gen.py; L is the last change of document 02 that
counts. Writes crates/vectors/data/cases and crates/vectors/stdout. A case is a line of five numbers of eight digits, then the bytes of the map, of
the calls and of the answer: the numbers are these three lengths, the groups and the width (0 and 0 of a refused map). The answer is a refusal; or
each row, behind those of the groups below 64 a frame `12` with the tries (8), then what each call prints and the map that is left. A call is a line:
an edit or, in the last cases, one that tools/states.py tells of. The second line of stdout is of change 7: of the edits of an acceptance that are
taken, how many move more places than W for each group whose list holds the drive, in the table before the edit or, where the acceptance is raised,
in the one after it; all their moves and all these ceilings; and the edit whose moves come nearest to its ceiling, with the number of its case, from
1; of those that come as near the one with the widest lists, then with most moves.

What is printed are the answers by kind of case; of the maps with a step 5, of those with a tree and of those with blocks over common drives how
many there are and how many of them are filled and edited; the moves, by cause, whose cause stands in an inner walk, and those whose cause stands at
a draw in a tree or in a straw bucket, or at one that finds none in one of the runs: of a 03 that of the place where following it ends; the numbers
of children that trees have; of the maps with blocks over common drives those whose table change 5 alters, those with an inner walk that goes on
below its item or meets held drives only, and the moves by a 03 whose drive an earlier block holds, in the run before the edit or in the one after
it; the maps refused with 23, and the edits of a weight that were taken, by the number of buckets above the drive; the edits of an acceptance
that were taken, those that reach their ceiling, and those whose drive no group holds; and the calls beside edits with their numbers."""
import argparse
import collections
import fractions
import itertools
import pathlib
import random
import sys

import blocks
import ceilings
import states
import weights

CRATE = pathlib.Path(__file__).resolve().parent.parent / "crates" / "vectors"
SEEDS = {"valid": 260, "damaged": 360, "edges": 648, "ambiguous": 22}
# trees of 1 to 64 children besides, which are few among the edges
TREES = 80
# and maps made of blocks over common drives
BLOCKS = 200
# and nested maps of each depth, some of them with weights that are not the sums; of a map so many ways to write such weights at most; and maps that
# answer each of the earlier questions no besides
NESTED = {1: 6, 2: 30, 3: 30, 4: 24, 5: 20}
UNTRUE, WAYS = 3, 16
BESIDE = 5
# and lists of calls with stores and returns: of tools/states.py, and of the other hand's generator
CALLS = 125
OPERATE = {"operate": 25, "operate-edges": 15}
# the maps of all other cases are made as of another change where the one that counts last has no other form of a map and alters no list
MADE = {7: 6, 8: 6}
TRIED = 64
# what the program has space for, in bytes
MAP, EDITS, ANSWER = 65600, 65536, 393216
# of cases with more bytes one of a kind, or of an edge, is enough
LARGE = 20000

M = ["0000000002", "0100000000000100010000", "020000010100000001", "03000000000000", "040100000000", "040302000000", "040400000000", "050007"]


def text(lines):
    return "".join(line + "\n" for line in lines).encode()


def samples():
    """Document 01, "Samples"."""
    two = ["0000000002", "0100000000000100010000", "020000020100000001", "03000000000000", "040100000000", "040304010000"]
    yield text(M + ["21000000000000"])
    yield text(M + ["22000000000000"])
    yield text([M[0], "0100000000000100000000"] + M[2:])
    yield text([M[0], "0100000000000000010000", "020000010100000000"] + M[3:])
    yield text(two + ["040304000000", "040400000000", "050008"])
    yield text(two + ["040305000000", "040400000000", "050008"])
    yield b""
    yield text(M[:-1] + ["050008"])
    yield text(M[:4] + M[3:-1] + ["050008"])


def orders():
    """Questions 9, 22 and 10 answered no in one map: each choice of them, and each order of the buckets that they are answered no at."""
    for faults in itertools.chain.from_iterable(itertools.permutations((9, 22, 10), count) for count in (1, 2, 3)):
        good = len(faults)
        children = {9: [65536 + good], 22: [], 10: list(range(1, 66))}
        kids = [(b, child) for b, fault in enumerate(faults) for child in children[fault]] + [(good, 0)]
        lines = ["0000000002"] + [f"01{d:04x}0000010000010000" for d in range(66)]
        # the weights are not the sums, which is asked later
        lines += [f"02{b:04x}010100000000" for b in range(good + 1)] + [f"03{b:04x}{child:08x}" for b, child in kids]
        lines += [f"0401{0:04x}{good:04x}", M[5], M[6]]
        yield text(lines + [f"05{len(lines):04x}"])


def ceiling_of(mp, before, after, device, acceptance):
    """How many places an edit of an acceptance moves at most, the width, and which way it goes; the tables are those before and after it."""
    was = mp.devices[device][1]
    ceiling = mp.W * ceilings.holders(mp, before if acceptance <= was else after, device)
    return ceiling, mp.W, "lowered" if acceptance < was else "raised" if acceptance > was else "unchanged"


def answer_of(reference, crush, calls, level, frames, lines, seen, taken, limited, called):
    """The answer, the groups and the width; of the moves seen, those of a refused edit are left out. For each edit of a weight that is
    taken, the number of buckets above its drive is added to taken; for each of an acceptance, its moves, ceiling, width and way to limited; for each
    other call its kind and its number to called."""
    mp = crush.load(frames, level)
    if isinstance(mp, int):
        return reference.refusal(mp), 0, 0
    table = [0] * reference.TABLE_PLACES
    number, _ = crush.fill(mp, table)
    if number:
        return reference.refusal(number), 0, 0
    groups, w, out = mp.G, mp.W, []
    for g in range(groups):
        out.append(b"11%08x" % g + b"".join(b"%04x" % p for p in table[g * w:(g + 1) * w]) + b"\n")
        if g < TRIED:
            places, tries = crush.rule(mp, g)
            assert places == table[g * w:(g + 1) * w]
            out.append(b"12%08x\n" % tries)
    desk = states.Desk(crush, calls, reference, level, mp, table)
    for line in lines:
        if states.is_call(line):
            out.append(desk.line(line))
            continue
        if crush.edit_form(line) is None:
            out.append(reference.refusal(18))
            continue
        before = len(seen)
        mp, table = desk.map, desk.table
        edited = crush.edit(mp, table, line, reference.MOVES_BYTES, False)
        if edited.number:
            del seen[before:]
            out.append(reference.refusal(edited.number))
            continue
        kind, device, value = crush.edit_form(line)
        if kind == "21":
            limited.append((edited.count(), *ceiling_of(mp, table, edited.table, device, value)))
        desk.map, desk.table = edited.map, edited.table
        out.append(edited.bytes())
        if kind == "22":
            taken.append(weights.buckets_above(mp, device))
    called += desk.counts
    out.append(crush.map_bytes(desk.map))
    return b"".join(out), groups, w


def name_of(line):
    """A line's kind: a row, tries, a move with its cause, a refusal with its number, or a frame of a map."""
    kind = line[:2]
    if kind == b"13":
        return "13.." + line[-2:].decode()
    return line.decode() if kind == b"1f" else {b"11": "rows", b"12": "tries"}.get(kind, "frames")


def edge_of(gen, level, seed):
    """The edge that the generator makes of a seed: one of document 01 of every third, of the two between one of the changes'."""
    if seed % 3 == 0:
        return f"edge {seed // 3 % len(gen.EDGES)}"
    later = [make for change, make in gen.LATER_EDGES if change <= level]
    return later[(seed // 3 * 2 + seed % 3 - 1) % len(later)].__name__


def block_input(crush, gen, seed):
    """A map of blocks over common drives, and edits that show it."""
    rng = random.Random(f"blocks:{seed}")
    doc, mp = blocks.altered(crush, gen, rng, seed, 8, rng.choice((2, 4, 6)))
    doc.edits = blocks.telling_edits(crush, rng, mp, rng.choice((2, 3, 4)))
    return doc.bytes()


def weight_inputs(crush, gen):
    """Edge and bytes of nested maps: with edits, with weights that are not the sums, and with these and an earlier question answered no."""
    for depth, count in NESTED.items():
        for seed in range(count):
            rng = random.Random(f"weights:{depth}:{seed}")
            doc = weights.nested(gen, rng, depth)
            ways = weights.untrue(rng, doc) if seed < UNTRUE else []
            for way in rng.sample(ways, min(WAYS, len(ways))):
                yield "weights", weights.with_written(doc, way).bytes()
            doc.edits = weights.edits(rng, doc, rng.choice((2, 4, 8)))
            yield "weights", doc.bytes()
    for number in weights.EARLIER:
        for seed in range(BESIDE):
            yield "weights", weights.beside(crush, gen, random.Random(f"beside:{number}:{seed}"), number, 1 + seed % 4).bytes()
    yield "crowded", weights.crowded(gen).bytes()


def call_inputs(crush, calls, gen, reference, level):
    """Edge and bytes of lists of calls."""
    for seed in range(CALLS):
        yield states.list_of_calls(crush, calls, gen, reference, seed)
    for kind, count in OPERATE.items():
        for seed in range(count):
            frames, lines = reference.split_input(gen.generate(seed, kind, level))
            # the table is not told: it is compared at the end
            yield kind, frames + b"".join(line + b"\n" for line in lines if line != b"2d")


def inputs(crush, calls, gen, reference, level, large):
    """Kind, edge and bytes of each input; an edge whose inputs are large comes once."""
    gen.Doc.level = made = MADE.get(level, level)
    for given in samples():
        yield "samples", "samples", given
    for given in orders():
        yield "orders", "orders", given
    for kind, seeds in SEEDS.items():
        for seed in range(seeds):
            edge = edge_of(gen, made, seed) if kind == "edges" else kind
            if edge == kind or edge not in large:
                yield kind, edge, gen.generate(seed, kind, made)
    for seed in range(TREES):
        yield "trees", "trees", gen.e_tree(random.Random(f"tree:{seed}"))
    for seed in range(BLOCKS if level >= crush.ONE_PLACE else 0):
        yield "blocks", "blocks", block_input(crush, gen, seed)
    for edge, given in weight_inputs(crush, gen) if level >= crush.WRITTEN_WEIGHTS else ():
        yield "weights", edge, given
    gen.Doc.level = level
    for edge, given in call_inputs(crush, calls, gen, reference, level) if level >= crush.STATES else ():
        yield "calls", edge, given


def watch(crush):
    """A list that takes, of each move, its cause, in which run a 03 has its item held by an earlier block (or none), the two draws or tests that
    it leads to and the map."""
    parting, cause, seen, parts = crush.first_parting, crush.cause_of, [], []

    def watched_parting(old, new):
        parts.append(parting(old, new))
        return parts[-1]

    def watched_cause(e, old, new):
        is_move = not parts  # and not an earlier place that a 03 leads to
        met = cause(e, old, new)
        if is_move:
            (place, _, tested, _), (*_, ended, ended2) = parts[0], parts[-1]
            holding = None
            if parts[1:] and parts[1][0].block != place.block:
                holding = "before" if blocks.is_held(crush, tested) else "after"
            seen.append((met[0], holding, ended, ended2, e.new_map))
            parts.clear()
        return met

    crush.first_parting, crush.cause_of = watched_parting, watched_cause
    return seen


def goes_through(frames):
    return any(line.startswith(b"0405") for line in frames.splitlines())


def trees_of(crush, mp):
    """Of each tree of a map, the number of children."""
    return [len(mp.children[b]) for b, kind in mp.kinds.items() if kind == crush.TREE]


def told_by_blocks(crush, mp):
    """What a filled map of blocks over common drives has."""
    walks = [walk for run in crush.runs_of(mp) for walk in blocks.inner_walks(run)]
    told = {
        "altered by change 5": blocks.differs(crush, mp),
        "an inner walk below its item": any(blocks.retries_below(crush, walk) for walk in walks),
        "an inner walk of held drives only": any(blocks.meets_held_only(crush, walk) for walk in walks),
    }
    return [what for what in told if told[what]]


def stands_at(crush, old, new, mp):
    """What a move's cause stands at: a draw, by the kind of its bucket, or a test."""
    if not isinstance(old, crush.Draw):
        return "a test"
    kind = "a tree" if mp.kinds[old.bucket] == crush.TREE else "a straw bucket"
    return kind + (", none in one run" if None in (old.winner, new.winner) else "")


def told_of_ceilings(limits):
    """The second line of the program's output: of edits with the moves, the ceiling, the width, the way and the case of each."""
    above = sum(moves > ceiling for moves, ceiling, *_ in limits)
    held = [limit for limit in limits if limit[1] > 0]

    def tightness(limit):
        moves, ceiling, width, *_ = limit
        return fractions.Fraction(moves, ceiling), width, moves

    moves, ceiling, width, _, case = max(held, key=tightness, default=(0, 0, 0, "", 0))
    return (f"{len(limits)} edits of an acceptance, {above} above their ceiling; {sum(limit[0] for limit in limits)} moves of at most "
            f"{sum(limit[1] for limit in limits)}; the tightest: {moves} of {ceiling} at width {width}, case {case}\n")


def main():
    parser = argparse.ArgumentParser(description=__doc__)
    parser.add_argument("--oracle", type=pathlib.Path, required=True)
    parser.add_argument("--level", type=int, default=8)
    options = parser.parse_args()
    sys.path.insert(0, str(options.oracle))
    import calls
    import crush
    import fill as reference
    import gen

    cases, answers, large, out = collections.Counter(), collections.defaultdict(collections.Counter), set(), []
    through, inner, trees, draws, children, shared, across, deep, lists = (collections.Counter() for _ in range(9))
    seen, taken, limited, limits, called = watch(crush), [], [], [], []
    for kind, edge, given in inputs(crush, calls, gen, reference, options.level, large):
        frames, edits = reference.split_input(given)
        rest = given[len(frames):]
        if len(frames) > MAP or len(rest) > EDITS or (len(given) > LARGE and edge in large):
            continue
        seen.clear()
        taken.clear()
        limited.clear()
        called.clear()
        answer, groups, w = answer_of(reference, crush, calls, options.level, frames, edits, seen, taken, limited, called)
        if len(given) + len(answer) > LARGE:
            if edge in large:
                continue
            large.add(edge)
        if len(answer) > ANSWER:
            continue
        out.append(b"%08x%08x%08x%08x%08x\n" % (len(frames), len(rest), len(answer), groups, w) + frames + rest + answer)
        cases[kind] += 1
        answers[kind].update(name_of(line) for line in answer.splitlines())
        of_map = ["maps"] + ["filled"] * (groups > 0) + ["filled and edited"] * (groups > 0 and len(edits) > 0) + ["with moves"] * (len(seen) > 0)
        through.update(of_map * goes_through(frames))
        mp = crush.load(frames, options.level)
        if not isinstance(mp, int):
            counts = trees_of(crush, mp)
            trees.update(of_map * (len(counts) > 0))
            children.update(counts)
            if blocks.share_drives(crush, mp):
                shared.update(of_map + told_by_blocks(crush, mp) * (groups > 0))
        inner.update(cause for cause, _, old, _, _ in seen if old.inner)
        draws.update((cause, stands_at(crush, *met)) for cause, _, *met in seen)
        deep.update(taken)
        across.update(holding for _, holding, *_ in seen if holding)
        limits += [(*limit, len(out)) for limit in limited]
        lists.update(called)
    (CRATE / "data" / "cases").write_bytes(b"".join(out))
    (CRATE / "stdout").write_text(f"{len(out)} cases, 0 wrong\n" + told_of_ceilings(limits))
    for kind, count in cases.items():
        print(f"{kind}: {count} cases, {dict(sorted(answers[kind].items()))}")
    print(f"step 5: {dict(through)}, moves by an inner walk {dict(sorted(inner.items()))}")
    print(f"trees: {dict(trees)}, children {dict(sorted(children.items()))}")
    print(f"blocks over common drives: {dict(shared)}, moves by a drive of an earlier block, held in the run {dict(across)}")
    untrue = sum(counts["1f17"] for counts in answers.values())
    print(f"weights: {untrue} maps refused with 23, {deep.total()} edits of a weight taken, by the number of buckets above the drive "
          f"{dict(sorted(deep.items()))}")
    ways = collections.Counter(way for *_, way, _ in limits)
    reached = collections.Counter(way for moves, ceiling, _, way, _ in limits if moves == ceiling > 0)
    unheld = sum(ceiling == 0 for _, ceiling, *_ in limits)
    print(f"acceptances: {dict(ways)}, reaching their ceiling {dict(reached)}, {unheld} of a drive that no group holds")
    print(f"calls: {dict(sorted(lists.items()))}")
    print(f"moves: {dict(sorted(draws.items()))}")
    print(f"{len(out)} cases, {sum(map(len, out))} bytes")


if __name__ == "__main__":
    main()
