#!/usr/bin/env python3
"""Writes the map of an example archive: three sites, their cabinets, and drives of four sizes. archive.map is what it prints.

A drive's number is its site, cabinet and slot, one hexadecimal digit each: 01a3 is slot 3 of cabinet a at site 1. Its weight is its size in
gigabytes. Each day has three copies, one at each site. A wide cabinet is a tree bucket, all others are straw buckets."""
import sys

GROUPS = 1024
ROOT, SITE, CABINET = 3, 2, 1  # types; a drive has type 0
STRAW, TREE = 1, 2  # kinds of buckets
WIDE = 16  # a cabinet of so many drives is wide
BASE = 65536  # a bucket's item number is this and its own number
FULL = 65536  # the acceptance of a drive that takes all that is drawn for it

# the drives of each cabinet, site by site: how many, and their size; the newest cabinets have the largest drives
SITES = [
    [(12, 4000), (12, 4000), (12, 8000), (12, 8000), (12, 16000), (12, 16000), (8, 20000), (8, 20000)],
    [(12, 4000), (12, 8000), (12, 8000), (12, 16000), (12, 16000), (10, 20000)],
    [(16, 8000), (16, 8000), (16, 16000), (12, 16000), (6, 20000)],
]
BROKEN = {0x013, 0x105, 0x21b}  # out for repair: they keep their weight and take nothing
FILLING = {0x070, 0x071, 0x240}  # new: they take half of what is drawn for them, for now


def acceptance(drive):
    if drive in BROKEN:
        return 0
    return FULL // 2 if drive in FILLING else FULL


def weigher(devices, links):
    """What tells the weight of an item by its number: a bucket weighs what its children do."""
    weights = {number: weight for number, weight, _ in devices}
    children = {}
    for bucket, child in links:
        children.setdefault(BASE + bucket, []).append(child)

    def weight_of(item):
        return weights[item] if item < BASE else sum(map(weight_of, children[item]))

    return weight_of


def main():
    devices, buckets, links = [], [(0, ROOT, STRAW)], []
    for s, cabinets in enumerate(SITES):
        site = 1 + s
        buckets.append((site, SITE, STRAW))
        links.append((0, BASE + site))
        for c, (count, size) in enumerate(cabinets):
            cabinet = 16 * site + c
            buckets.append((cabinet, CABINET, TREE if count >= WIDE else STRAW))
            links.append((site, BASE + cabinet))
            for slot in range(count):
                drive = 256 * s + 16 * c + slot
                devices.append((drive, size, acceptance(drive)))
                links.append((cabinet, drive))
    weight_of = weigher(devices, links)
    lines = [f"00{GROUPS:08x}"]
    lines += [f"01{number:04x}{weight:08x}{share:08x}" for number, weight, share in sorted(devices)]
    lines += [f"02{number:04x}{type_:02x}{kind:02x}{weight_of(BASE + number):08x}" for number, type_, kind in sorted(buckets)]
    lines += [f"03{bucket:04x}{child:08x}" for bucket, child in sorted(links)]
    # take the root; three sites; in each a drive of any cabinet; emit
    lines += ["040100000000", f"040303{SITE:02x}0000", "040301000000", "040400000000"]
    lines.append(f"05{len(lines):04x}")
    sys.stdout.write("".join(line + "\n" for line in lines))


if __name__ == "__main__":
    main()
