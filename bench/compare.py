#!/usr/bin/env python3
"""Runs the program `against` on each map and prints the ratios of the build before to this one.

usage: compare.py DIR ROUNDS: DIR holds the program and takes the maps. The exit status is not 0 where results differ."""
import pathlib
import sys

import maps
import measure


def main():
    folder, rounds = pathlib.Path(sys.argv[1]), sys.argv[2]
    rows = [["before / now", "load", "fill", "edit 21", "edit 22"]]
    for name, title, text in maps.COMPARED:
        got = measure.run(folder, ["against"], name, text(), rounds)
        calls = ("load", "fill", "acceptance", "weight")
        # a map that the build before refuses has no ratios
        rows.append([title] + [f"{got[call][0] / got[call][1]:.2f}" if got else "-" for call in calls])
    measure.print_table(rows)


if __name__ == "__main__":
    main()
