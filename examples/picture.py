#!/usr/bin/env python3
"""Draws docs/placing.svg: on which drives of the example archive a group lies, and what moves as one of them dies. The drives are those that program
`operate` prints.

Usage: picture.py >docs/placing.svg (from the repository's root, with target/bin/operate made)"""
import pathlib
import subprocess
import sys

ROOT = pathlib.Path(__file__).resolve().parent.parent
sys.path.insert(0, str(ROOT / "tools"))
sys.dont_write_bytecode = True
import show

MAP, NAMES = ROOT / "examples" / "archive.map", ROOT / "examples" / "archive.names"
GROUP, DEAD = 147, 0x20
SIDE, GAP, ROW, LABEL, WIDE, TOP = 14, 3, 24, 66, 372, 88  # pixels
PLAIN, LIES, DIES, GOES, EMPTY = "#dde3ea", "#4878a8", "#a83232", "#d9541e", "#ffffff"


def answers():
    """The group's drives, and its moves as (old, new) once the drive is marked dead."""
    given = MAP.read_text() + f"21{DEAD:04x}{0:08x}\n"
    printed = subprocess.run([ROOT / "target" / "bin" / "operate"], input=given, stdout=subprocess.PIPE, text=True, check=True).stdout.split()
    row = next(line[10:] for line in printed if line.startswith(f"11{GROUP:08x}"))
    moves = [line for line in printed if line.startswith(f"13{GROUP:08x}")]
    return [int(row[at:at + 4], 16) for at in range(0, len(row), 4)], [(int(line[12:16], 16), int(line[16:20], 16)) for line in moves]


def square(x, y, colour):
    return f'<rect x="{x}" y="{y}" width="{SIDE}" height="{SIDE}" fill="{colour}" stroke="#8a94a0"/>'


def main():
    given = show.Map(MAP.read_bytes())
    labels = show.Labels(show.read_names(NAMES, given), given)
    lies, moves = answers()
    goes = dict(moves)
    parts, at = [], {}
    root = given.roots[0]
    sites = [item - show.BASE for item in given.children[root]]
    for column, site in enumerate(sites):
        left, cabinets = 16 + column * WIDE, [item - show.BASE for item in given.children[site]]
        high = 26 + ROW * len(cabinets)
        parts.append(f'<rect x="{left}" y="{TOP}" width="{WIDE - 16}" height="{high}" rx="6" fill="#f6f7f9" stroke="#b8c0ca"/>')
        parts.append(show.words_at(left + 10, TOP + 17, labels.short(site), size=13))
        for line, cabinet in enumerate(cabinets):
            y = TOP + 26 + line * ROW
            parts.append(show.words_at(left + 10, y + 12, labels.short(cabinet)))
            for slot, drive in enumerate(given.children[cabinet]):
                x = left + LABEL + slot * (SIDE + GAP)
                at[drive] = x + SIDE / 2, y + SIDE / 2
                colour = EMPTY if given.is_dead(drive) else PLAIN
                colour = DIES if drive in goes else LIES if drive in lies else GOES if drive in goes.values() else colour
                parts.append(square(x, y, colour))
    for old, new in moves:
        (x, y), (to, _) = at[old], at[new]
        arrow = f"M {x} {y + 8} Q {(x + to) / 2} {y + 30} {to} {y + 9}"
        parts.append(f'<path d="{arrow}" fill="none" stroke="{GOES}" stroke-width="2" marker-end="url(#tip)"/>')
    words = [(LIES, f"a copy of group {GROUP}"), (DIES, f"its copy on drive {DEAD:04x}, which dies"),
             (GOES, "the drive that it goes to: the only place of the group that moves"), (EMPTY, "dead before")]
    x = 16
    for colour, told in words:
        parts += [square(x, 48, colour), show.words_at(x + 20, 60, told, size=12)]
        x += 60 + 6.4 * len(told)
    title = f"{len(given.drives)} drives at three sites, {given.groups:,} groups, a copy of each at every site: no directory, the map alone says where"
    parts.append(show.words_at(16, 28, title, size=16))
    wide, high = 16 + WIDE * len(sites), TOP + 40 + ROW * max(len(given.children[site]) for site in sites)
    tip = f'<marker id="tip" markerWidth="8" markerHeight="8" refX="5" refY="4" orient="auto"><path d="M 0 1 L 6 4 L 0 7 z" fill="{GOES}"/></marker>'
    print(f'<svg xmlns="http://www.w3.org/2000/svg" width="{wide}" height="{high}" viewBox="0 0 {wide} {high}" '
          'font-family="sans-serif" fill="#222222">')
    print("\n".join([f"<defs>{tip}</defs>", f'<rect width="{wide}" height="{high}" fill="#ffffff"/>', *parts, "</svg>"]))


if __name__ == "__main__":
    main()
