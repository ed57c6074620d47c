#!/usr/bin/env python3
"""Compares program `fill` or `operate` with a CRUSH by another hand on random maps and lines, good, damaged and at the edges, output by output.

compare_fill.py --oracle DIR [--operate] [--level L] [--maps N] [--first SEED] [--kinds KIND ..] [--program FILE]: DIR holds that CRUSH as fill.py,
operate.py and gen.py; L is the last change of document 02 that counts; N seeds of each kind of input. What is counted are the inputs with a step 5,
with a tree, and with blocks over common drives, of these how many have other rows than before change 5; the lines behind the maps that were filled,
by kind; and the answers wanted: rows, moves by their cause, frames of written maps, refusals. `packaging/programs` makes the programs."""
import argparse
import collections
import importlib
import pathlib
import random
import subprocess
import sys

import blocks

KINDS = ("valid", "damaged", "edges", "ambiguous")
# of program `operate`, from change 8 on: lists of calls as the other hand draws them
LISTS = ("operate", "operate-edges")
PROGRAMS = pathlib.Path(__file__).resolve().parent.parent / "target" / "bin"
# the largest table, which program `operate` takes, and the most places of one that gets more edits: the other CRUSH is slow
MOST_PLACES = 65536 * 32
FEW_PLACES = 4096
CALLS = (b"2c", b"2d")
# from change 8 on: the calls that have a name, and ten names, more than there is room for
NAMED = (b"23", b"24")
NAMES = (b"0000", b"0001", b"0002", b"0003", b"0007", b"00ff", b"1234", b"8000", b"abcd", b"ffff")
# lines of no form: a call that is cut, spelled otherwise, longer or of another letter; edits that are too short or too long
FORMLESS = (b"", b"2", b"c", b"2C", b"2D", b"2c2c", b"2d2d", b"2c ", b" 2d", b"2d\r", b"2c0", b"2d\0", b"\0\0", b"\xb2c", b"2b", b"2e", b"1c", b"12d",
            b"3d", b"23 0001", b"23000", b"24000A", b"0500", b"00", b"2100000000000", b"210000000000000", b"2d0000000000000", b"2c" * 7, b"2d" * 8,
            b"2c" * 35000, b"21" + b"0" * 69998)


def output_of(command, given):
    return subprocess.run(command, input=given, stdout=subprocess.PIPE, check=True).stdout


def with_lines(crush, reference, rng, given, level):
    """The input with calls, lines of no form and edits of the map's drives put among its lines, and from change 8 on stores and returns. One that is cut off in its map stays as it is."""
    frames, rest = reference.cut(given)
    if not frames.endswith(b"\n"):
        return given
    mp = crush.load(frames, level)
    more = [rng.choice(CALLS) for _ in range(rng.randrange(5))] + [rng.choice(FORMLESS) for _ in range(rng.choice((0, 0, 1, 2, 4)))]
    if isinstance(mp, crush.Map) and mp.G * mp.W <= FEW_PLACES:
        more += blocks.possible_edits(rng, mp)[:rng.choice((0, 0, 1, 3, 6))]
    if level >= 8:
        more += [rng.choice(NAMED) + rng.choice(NAMES[:rng.choice((2, 10))]) for _ in range(rng.choice((0, 2, 6, 24)))]
    lines = reference.split_input(given)[1]
    for line in more:
        lines.insert(rng.randint(0, len(lines)), line)
    unended = bool(lines) and lines[-1] != b"" and rng.random() < 0.3
    return frames + b"\n".join(lines) + (b"" if unended or not lines else b"\n")


def call_of(crush, line):
    """What kind of line it is, behind a map."""
    if crush.edit_form(line) is not None:
        return "edit"
    return line.decode() if line in CALLS else line[:2].decode() if line[:2] in NAMED and len(line) == 6 else "other"


def name_of(line):
    """A printed line's kind: a row, a move with its cause, a frame of a map, or a refusal with its number."""
    if line.startswith(b"11"):
        return "row"
    if line.startswith(b"0"):
        return "frame"
    return (b"13.." + line[-2:]).decode() if line.startswith(b"13") else line.decode()


def main():
    parser = argparse.ArgumentParser(description=__doc__)
    parser.add_argument("--oracle", type=pathlib.Path, required=True)
    parser.add_argument("--operate", action="store_true")
    parser.add_argument("--level", type=int, default=8)
    parser.add_argument("--maps", type=int, default=100)
    parser.add_argument("--first", type=int, default=0)
    parser.add_argument("--kinds", nargs="+", choices=KINDS + LISTS)
    parser.add_argument("--program", type=pathlib.Path)
    options = parser.parse_args()
    sys.path.insert(0, str(options.oracle))
    import crush
    import fill as reference
    import gen

    name = "operate" if options.operate else "fill"
    program = options.program or PROGRAMS / name
    emulate = importlib.import_module(name).emulate
    if options.operate:
        reference.TABLE_PLACES = MOST_PLACES
    calls, answers = collections.Counter(), collections.Counter()
    inputs = edited = through = trees = shared = altered = wrong = 0
    for kind in options.kinds or (KINDS + LISTS if options.operate and options.level >= 8 else KINDS):
        for seed in range(options.first, options.first + options.maps):
            drawn = gen.generate(seed, kind, options.level)
            given = drawn if kind in LISTS else with_lines(crush, reference, random.Random(f"{kind} {seed}"), drawn, options.level)
            want = emulate(given, options.level)
            got = output_of([program], given)
            inputs += 1
            through += any(line.startswith(b"0405") for line in given.splitlines())
            trees += any(line.startswith(b"02") and line[8:10] == b"02" for line in given.splitlines())
            if want.startswith(b"11"):
                frames, lines = reference.split_input(given)
                edited += bool(lines)
                calls.update(call_of(crush, line) for line in lines)
                mp = crush.load(frames, options.level)
                if blocks.share_drives(crush, mp):
                    shared += 1
                    altered += blocks.differs(crush, mp)
            if got != want:
                wrong += 1
                print(f"{kind} {seed}: {got[:60]!r} for {want[:60]!r}")
            answers.update(name_of(line) for line in want.splitlines())
    print(f"{inputs} inputs, {through} of them with a step 5, {trees} with a tree, {shared} with blocks over common drives, {altered} of these with "
          f"other rows than before change 5, {edited} filled and edited, {wrong} wrong; lines {dict(sorted(calls.items()))}; "
          f"wanted {dict(sorted(answers.items()))}")
    return 1 if wrong else 0


if __name__ == "__main__":
    sys.exit(main())
