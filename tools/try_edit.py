#!/usr/bin/env python3
"""One must-fail edit, tried by hand: makes its replacements in the crate, runs `rt check` there, prints where it is refused first, and takes them back.

Usage: try_edit.py CRATE/EDIT (from the repository's root). `rt check` proves again only what the edit changes, so this takes seconds where the
crate has been checked before; it is not the verdict, which is `rt must-fail CRATE` and the gate."""
import re, subprocess, sys

crate, name = sys.argv[1].split("/")
path, pairs = None, []
for line in open(f"crates/{crate}/must-fail/{name}.edit"):
    kind, text = line.rstrip("\n").split(": ", 1)
    if kind == "file":
        path = f"crates/{crate}/{text}"
    elif kind == "old":
        pairs.append([text, None])
    else:
        pairs[-1][1] = text
before = open(path).read()
after = before
for old, new in pairs:
    if old not in after:
        sys.exit(f"{path} has no {old!r}")
    after = after.replace(old, new)
try:
    open(path, "w").write(after)
    told = subprocess.run(["rt", "check"], cwd=f"crates/{crate}", stdout=subprocess.PIPE, stderr=subprocess.STDOUT, text=True)
finally:
    open(path, "w").write(before)
# of a function without a proof file the prover says what is not proved; of any other the first error is its own
refused = [line for line in told.stdout.splitlines() if re.match(r"note: \S+: it is not proved", line)]
refused += [line for line in told.stdout.splitlines() if re.match(r"\S+: error", line)]
if told.returncode == 0 or not refused:
    sys.exit("not refused" if told.returncode == 0 else told.stdout)
print(refused[0])
