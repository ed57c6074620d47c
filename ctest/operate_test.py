#!/usr/bin/env python3
"""Program `operate`: each map that it writes gives, loaded again, the table that it told; a day and a campaign on the example archive; tables of the
most places. All of it in a stack of 8 MiB.

Usage: operate_test.py OPERATE FILL (from the repository's root). What `fill` prints is the measure for as many groups as it takes."""
import resource, subprocess, sys, time

OPERATE, FILL = sys.argv[1:]
GROUPS = 65536
STACK = 8 << 20
# the table is told before the map and behind it
ASKED = b"2d\n2c\n2d\n"
ARCHIVE = open("examples/archive.map", "rb").read()
wrong = 0


def expect(name, holds):
    global wrong
    if not holds:
        wrong += 1
        print(f"operate: {name}")


def output(program, given):
    limit = lambda: resource.setrlimit(resource.RLIMIT_STACK, (STACK, STACK))
    return subprocess.run([program], input=given, stdout=subprocess.PIPE, check=True, preexec_fn=limit).stdout


def groups_of(frames):
    return int(frames[2:10], 16)


def with_groups(frames, groups):
    return b"00%08x" % groups + frames[10:]


def edits_of(frames):
    """The first drive dies, the last one loses half of its weight, the first comes back."""
    drives = [line for line in frames.split(b"\n") if line.startswith(b"01")]
    first, last = drives[0], drives[-1]
    return [b"21" + first[2:6] + b"00000000\n", b"22" + last[2:6] + b"%08x\n" % (int(last[6:14], 16) // 2), b"21" + first[2:6] + first[14:] + b"\n"]


def saves(printed, groups):
    """Each map among the lines printed, and as many lines ahead of it and behind it as it has groups."""
    for at, line in enumerate(printed):
        if line.startswith(b"00"):
            begin = at
        if line.startswith(b"05"):
            yield tuple(b"".join(part) for part in (printed[begin : at + 1], printed[begin - groups : begin], printed[at + 1 : at + 1 + groups]))


def moved(rows, moves):
    """The rows with the moves put in; none where a move tells another drive than the row has."""
    rows = [bytearray(row) for row in rows]
    for move in moves:
        group, at = int(move[2:10], 16), 6 + 4 * int(move[10:12], 16)
        if rows[group][at : at + 4] != move[12:16]:
            return []
        rows[group][at : at + 4] = move[16:20]
    return rows


def is_return(moves):
    return bool(moves) and all(move.startswith(b"13") and move.endswith(b"04\n") for move in moves)


def wide():
    """A map of 64 drives in a tree, the first of little weight, and a rule of two blocks of 16 places."""
    weights = [1] + [1000] * 63
    lines = [b"0000000001"]
    lines += [b"01%04x%08x00010000" % (drive, weight) for drive, weight in enumerate(weights)]
    lines += [b"0200000102%08x" % sum(weights)]
    lines += [b"030000%08x" % drive for drive in range(len(weights))]
    lines += [b"040100000000", b"040310000000", b"040400000000"] * 2
    return b"\n".join(lines + [b"05%04x\n" % len(lines)])


# maps of few groups saved before an edit and behind each, and loaded again by both programs
with open("ctest/vectors.txt") as calls:
    given = sorted({bytes.fromhex(call.split()[0]) for call in calls if not call.startswith("-")}) + [ARCHIVE]
maps = saved = 0
for frames in given:
    rows = output(FILL, frames)
    if not rows.startswith(b"11") or groups_of(frames) > 1024:
        continue
    maps += 1
    printed = output(OPERATE, frames + ASKED + b"".join(edit + ASKED for edit in edits_of(frames))).splitlines(keepends=True)
    written = list(saves(printed, groups_of(frames)))
    expect("a map is not written each time", len(written) == 4)
    expect("a map that was not edited is written otherwise", written[:1] and written[0][0] == frames)
    saved += len(written)
    for again, before, behind in set(written):
        expect("the table differs ahead of a map and behind it", before == behind)
        for program in (OPERATE, FILL):
            expect(f"a saved map has other rows in {program}", output(program, again) == before)

# a day: a drive is marked dead and the map saved; loaded again, the drive is brought back
fresh = output(OPERATE, ARCHIVE)
dead, _, back = edits_of(ARCHIVE)
printed = output(OPERATE, ARCHIVE + dead + ASKED)
(evening, left, _), = saves(printed.splitlines(keepends=True), groups_of(ARCHIVE))
expect("the drive still stands in the table", left != fresh)
printed = output(OPERATE, evening + back + b"2d\n2c\n")
expect("the saved map does not give the table that was left", printed.startswith(left))
expect("the table and the map are not as they were", printed.endswith(fresh + ARCHIVE))

# a campaign: what was stored is returned to, by moves of cause 04; a second time nothing moves, and another name is not known
STORE, RETURN = b"230001\n", b"240001\n"
shifts = b"".join(edits_of(ARCHIVE)[:2])
edited = output(OPERATE, ARCHIVE + shifts)
printed = output(OPERATE, ARCHIVE + STORE + shifts + RETURN + RETURN + b"240002\n2d\n2c\n")
expect("a store prints something, or the edits behind it move otherwise", printed.startswith(edited))
back, end = printed[len(edited) :].splitlines(keepends=True), b"1f18\n" + fresh + ARCHIVE
expect("the map and the table are not as stored", printed.endswith(end))
back = back[: len(back) - end.count(b"\n")]
expect("the moves of a return", is_return(back))
rows, moves = ([line for line in edited.splitlines(keepends=True) if line.startswith(kind)] for kind in (b"11", b"13"))
expect("the moves of a return do not take those of the edits back", b"".join(moved(rows, moves + back)) == fresh)

# eight names have room, and storing under one of them replaces it; other forms are refused; a map that is loaded again has no state
names = [b"0000", b"0001", b"00ff", b"0100", b"1234", b"8000", b"fffe", b"ffff"]
stores = b"".join(b"23%s\n" % name for name in names)
told = lambda lines: output(OPERATE, ARCHIVE + lines)[len(fresh) :]
expect("eight stores print something", told(stores + stores) == b"")
expect("a ninth name", told(stores + b"230002\n240002\n" + stores) == b"1f19\n1f18\n")
replaced = told(stores + shifts + b"23ffff\n240000\n24ffff\n2c\n")
expect("a state that was replaced", replaced.endswith(output(OPERATE, ARCHIVE + shifts + b"2c\n")[len(edited) :]))
for form in (b"23", b"24", b"23001", b"24001", b"2300010", b"2400010", b"23000A", b"24000A", b"23 001", b"2 0001", b"250001"):
    expect(f"line {form.decode()}", told(stores + form + b"\n") == b"1f12\n")
expect("a state in a map that was loaded again", output(OPERATE, evening + RETURN) == left + b"1f18\n")

# the most places that `fill` takes, one group more, and the most groups; then edits, the first of the archive with too many moves
heavy, dead = b"2200000000ffff\n", b"21000000000000\n"
took = []
for places, frames, most, edits, refused in ((3, ARCHIVE, 10922, heavy + dead, [b"1f14\n"]), (32, wide(), 1024, dead, [])):
    rows = output(FILL, with_groups(frames, most))
    expect(f"{most} groups of {places} places in operate", output(OPERATE, with_groups(frames, most)) == rows)
    expect(f"{most + 1} groups of {places} places in fill", output(FILL, with_groups(frames, most + 1)) == b"1f10\n")
    above = output(OPERATE, with_groups(frames, most + 1))
    expect(f"{most + 1} groups of {places} places in operate", above.startswith(rows) and above.count(b"\n") == most + 1)
    begun = time.monotonic()
    lines = output(OPERATE, with_groups(frames, GROUPS) + STORE + edits + b"2d\n" + RETURN + b"2d\n").splitlines(keepends=True)
    took.append(f"{GROUPS} groups of {places} places, edited, told again and returned to, in {time.monotonic() - begun:.1f} s")
    at = next(at for at, line in enumerate(lines[GROUPS:], GROUPS) if line.startswith(b"11"))
    table, between, left = lines[:GROUPS], lines[GROUPS:at], lines[at : at + GROUPS]
    back, again = lines[at + GROUPS : -GROUPS], lines[-GROUPS:]
    moves = between[len(refused) :]
    expect(f"the rows of {GROUPS} groups of {places} places", b"".join(table).startswith(rows) and table[-1].startswith(b"110000ffff"))
    expect(f"the refusals of {GROUPS} groups of {places} places", between[: len(refused)] == refused)
    expect(f"the moves of {GROUPS} groups of {places} places", moves and all(line.startswith(b"13") for line in moves))
    expect(f"the rows of {GROUPS} groups of {places} places behind edits", left == moved(table, moves))
    expect(f"the rows of {GROUPS} groups of {places} places behind a return", is_return(back) and again == moved(left, back) and again == table)

print(f"operate: {maps} maps saved {saved} times and loaded again; {'; '.join(took)}; {wrong} wrong")
sys.exit(wrong != 0)
