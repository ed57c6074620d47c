#!/usr/bin/env python3
"""Gives each map of vectors.txt to the C program `rows` and to program `fill`, and compares what they print.

usage: compare_rows.py ROWS FILL VECTORS"""
import subprocess
import sys


def main():
    rows, fill, vectors = sys.argv[1:]
    with open(vectors) as lines:
        maps = sorted({line.split()[0] for line in lines} - {"-"})
    wrong = 0
    for spelled in maps:
        given = bytes.fromhex(spelled)
        by_c, by_rattle = (subprocess.run([program], input=given, stdout=subprocess.PIPE, check=True).stdout for program in (rows, fill))
        if by_c != by_rattle:
            wrong += 1
            print(f"a map of {len(given)} bytes: {by_c[:60]!r} for {by_rattle[:60]!r}")
    print(f"{len(maps)} maps, {wrong} wrong")
    return 0 if maps and not wrong else 1


if __name__ == "__main__":
    sys.exit(main())
