#!/usr/bin/env python3
"""What the gate did, from what it printed: of each crate whether it was proved in that run, its functions, and its must-fail edits that were refused,
each of which costs a check of the crate.

Usage: gate_costs.py LOG. rt tells no seconds: `time rt ci NAME`, where nothing of the crate is kept, has those of a crate with all below it. Edits that are
refused first at one and the same place are named at the end, since two of them may show the same, and those that show little: refused only because a
proof names what the edit took away, or at a limit of the prover."""
import collections, re, sys

crates, edits, functions = {}, [], None
for line in open(sys.argv[1], errors="replace"):
    if found := re.match(r"logic=proved functions=(\d+)", line):
        functions = found[1]
    elif found := re.match(r"rt: (\w+) (proved$|is kept:)", line):
        crates[found[1]] = ("now", functions) if found[2] == "proved" else ("kept", "")
    elif found := re.match(r"rt: must-fail (\w+)/([\w.-]+)\.edit: refused, as it must be(?: \((only .*?)\))?(?:: (?:note: )?(?:\./)?(\S+?):? .*)?$", line):
        edits.append(found.groups())
count = collections.Counter(crate for crate, _, _, _ in edits)
made = sum(how == "now" for how, _ in crates.values())
print(f"{len(crates)} crates, of which {made} were proved in this run, and {len(edits)} edits refused")
print(f"{'crate':18}{'proved':>7}{'functions':>11}{'edits':>7}")
for crate in sorted(crates, key=lambda c: (-count[c], c)):
    how, functions = crates[crate]
    print(f"{crate:18}{how:>7}{functions:>11}{count[crate]:7}")
places = collections.defaultdict(list)
for crate, name, only, place in edits:
    if only:
        print(f"{crate}/{name}: {only.split(',')[0].split(' (')[0]}")
    elif place:
        places[crate, place].append(name)
for (crate, place), names in places.items():
    if len(names) > 1:
        print(f"first at {crate}/{place}: {', '.join(names)}")
