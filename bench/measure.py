#!/usr/bin/env python3
"""Runs the programs `bench` and `bench-branchless` on each map, prints the ratios of plain C to the engine, and writes growth.json for the plot.

usage: measure.py DIR ROUNDS [--runs N] [--libcrush]: DIR holds the programs and takes the maps. Of several runs each cell is a range, the least
and the greatest; with --libcrush the ratios of libcrush to the engine, by the program `libcrush`, are a column too. The exit status is not 0 where
results differ or an edit, a return or a store is over its budget."""
import argparse
import json
import pathlib
import subprocess
import sys

import maps

BUDGETS = {"acceptance": 1.3, "weight": 2.0}  # an edit that moves few places, in fills
BOTH_BUDGET = 4.0  # any edit, in the fills before and after it together
# returns, in fills, and stores, in loads: what is measured, how it is told, the budget
RETURNS = (("few", "that moves few places", 2.2), ("none", "that moves none", 2.2), ("all", "after which all weights are others", 3.2))
STORES = (("empty", "where none is stored", 1.2), ("eight", "of one of eight names", 1.2))
TURNS = 5  # how often the draws of each kind are measured, by turns


class Ratio(float):
    def __str__(self):
        return f"{self:.2f}"


class Rate(float):
    """Mappings a second."""

    def __str__(self):
        return f"{self / 1e3:,.0f} k"


class Time(float):
    """Nanoseconds."""

    def __str__(self):
        if self < 1e3:
            return f"{self:.1f} ns"
        return f"{self / 1e3:.1f} us" if self < 1e6 else f"{self / 1e6:.2f} ms"


def processor():
    """Its name, so that figures can tell it."""
    lines = [line.partition(":") for line in pathlib.Path("/proc/cpuinfo").read_text().splitlines()]
    fields = {key.strip(): value.strip() for key, _, value in lines}
    return ", ".join(f"{word}{fields.get(key, '?')}" for word, key in (("", "model name"), ("family ", "cpu family"), ("model ", "model")))


def run(folder, words, name, text, rounds):
    """What a program prints of a map: a name and two numbers a line. The first of the words is the program."""
    path = folder / f"{name}.map"
    path.write_text(text)
    out = subprocess.run([folder / words[0], *words[1:], path, str(rounds)], stdout=subprocess.PIPE, text=True)
    if out.returncode != 0:
        sys.exit(f"{name}: the program `{words[0]}` failed")
    return {word: (float(a), float(b)) for word, a, b in (line.split() for line in out.stdout.splitlines())}


def ratio(pair):
    return Ratio(pair[1] / pair[0])


def print_table(rows):
    widths = [max(len(row[i]) for row in rows) for i in range(len(rows[0]))]
    for row in rows:
        print("  ".join([row[0].ljust(widths[0])] + [cell.rjust(width) for cell, width in zip(row[1:], widths[1:])]).rstrip())


def span(cells):
    """A cell over all runs: the least and the greatest, or one where they print alike."""
    return "-".join(dict.fromkeys([str(min(cells)), str(max(cells))]))


def compared(folder, rounds, libcrush):
    """The tables of the maps that are compared; by map the fills that an edit of each kind takes, and what returns and stores take."""
    ratios = [["plain C / engine", "load", "place", "fill", "fill*", "edit 21", "edit 22", "ceiling", "return", "store"] + ["libcrush"] * libcrush]
    times = [["the engine's own times", "load", "place", "fill", "edit 21", "edit 22", "ceiling", "return", "store"]]
    fills = [["in fills of the engine", "edit 21", "edit 22", "ceiling", "moves 21", "moves 22"]]
    states = [["returns in fills, stores in loads", *(f"return: {name}" for name, *_ in RETURNS), *(f"store: {name}" for name, *_ in STORES),
               "moves: few", "moves: all"]]
    rates = [["mappings a second", "engine", "libcrush"]]
    filled, holes, shares, kept = {}, [], [], []
    for name, title, text in [*maps.COMPARED, maps.BLOCKS]:
        got = run(folder, ["bench", "all"], name, text(), rounds)
        filled[name] = got["fill"]
        columns = [got[call] for call in ("load", "place", "fill", "acceptance", "weight", "ceiling")]
        # of the returns to and fro one
        columns += [[took / 2 for took in got["return-few"]], got["store-empty"]]
        ratios.append([title] + [ratio(pair) for pair in columns])
        ratios[-1].insert(4, ratio(run(folder, ["bench-branchless", "fill"], name, text(), rounds)["fill"]))
        if libcrush:
            theirs = run(folder, ["libcrush"], name, text(), rounds)
            ratios[-1].append(ratio(theirs["libcrush"]) if theirs else "-")
            holes.append(theirs.get("holes", (0, 0)))
            if theirs:
                rates.append([title] + [Rate(int(text()[2:10], 16) * 1e9 / took) for took in theirs["libcrush"]])
        times.append([title] + [Time(pair[0]) for pair in columns])
        shares.append([Ratio(got[call][0] / got["fill"][0]) for call in BUDGETS])
        ceiling = Ratio(got["ceiling"][0] / got["fill"][0])
        moves = [got[call][0] / got[call][1] for call in ("moves-acceptance", "moves-weight")]
        fills.append([title, *shares[-1], ceiling] + [f"{x:.1f}" for x in moves])
        kept.append([Ratio(got[f"return-{which}"][0] / got[f"fills-{which}"][0]) for which, *_ in RETURNS])
        kept[-1] += [Ratio(got[f"store-{which}"][0] / got["load"][0]) for which, *_ in STORES]
        moves = [got[f"moves-return-{which}"][0] / got[f"moves-return-{which}"][1] for which in ("few", "all")]
        states.append([title, *kept[-1]] + [f"{x:.1f}" for x in moves])
    dead = [["fill through 3 of 64 cabinets", "engine", "plain C"]]
    for name, title in (("dead", "4 dead / all alive"), ("quarter", "16 dead / all alive")):
        dead.append([title] + [Ratio(a / b) for a, b in zip(filled[name], filled["through"])])
    tables = [ratios, times, fills, states, dead]
    if libcrush:
        tables.append(rates)
        tables.append([["holes in all lists", "engine", "libcrush"], ["maps that libcrush has"] + [f"{sum(n):.0f}" for n in zip(*holes)]])
    return tables, shares, kept


def edited(folder, rounds):
    """The table of edits that move many places, and how long each takes beside both fills."""
    rows, both = [["edits beside the fills before and after", "moves", "fills before", "both fills"]], []
    for name, title, frame, text in maps.EDITED:
        got = run(folder, ["bench", frame], name, text(), rounds)
        before, edit, after = (got[word][0] for word in ("before", "edit", "after"))
        both.append(Ratio(edit / (before + after)))
        rows.append([title, f"{got['moves'][0] / got['moves'][1]:,.0f}", Ratio(edit / before), both[-1]])
    return rows, both


def drawn(folder, rounds):
    """The table of a draw in a straw bucket and in a tree."""
    turns = [[run(folder, ["bench", "fill"], name, text(), rounds)["fill"] for name, text in maps.DRAWN] for _ in range(TURNS)]
    straw, tree, rest = [[min(took) / maps.DRAWS for took in zip(*pairs)] for pairs in zip(*turns)]
    rows = [["a draw among 64 children", "engine", "plain C", "ratio"]]
    draws = [[took - other for took, other in zip(pair, rest)] for pair in (straw, tree)]
    rows += [[name, Time(pair[0]), Time(pair[1]), ratio(pair)] for name, pair in zip(("straw", "tree"), draws)]
    rows.append(["straw / tree"] + [Ratio(long / short) for long, short in zip(*draws)] + [""])
    rows.append(["the rest of a place", Time(rest[0]), Time(rest[1]), ratio(rest)])
    return rows


def grown(folder, rounds):
    """The tables of how fill's time grows; they are written for the plot too."""
    tables, growth = [], []
    for name, title, points in maps.GROWTH:
        pairs = [(number, *run(folder, ["bench", "fill"], "growth", text(), rounds)["fill"]) for number, text in points]
        growth.append({"name": name, "title": title, "points": pairs})
        tables.append([[f"fill by {name}: {title}", "engine", "plain C", "ratio"]])
        tables[-1] += [[f"{number:,}", Time(engine), Time(plain), ratio((engine, plain))] for number, engine, plain in pairs]
    (folder / "growth.json").write_text(json.dumps(growth))
    return tables


def greatest(runs):
    """Of each column the greatest of all maps, of each map the run that was disturbed least."""
    least = [[min(cells) for cells in zip(*same)] for same in zip(*runs)]
    return [max(cells) for cells in zip(*least)]


def main():
    parser = argparse.ArgumentParser()
    parser.add_argument("folder", type=pathlib.Path)
    parser.add_argument("rounds", type=int)
    parser.add_argument("--runs", type=int, default=1)
    parser.add_argument("--libcrush", action="store_true")
    args = parser.parse_args()
    print(processor())
    runs, shares, kept, boths = [], [], [], []
    for _ in range(args.runs):
        tables, share, keep = compared(args.folder, args.rounds, args.libcrush)
        many, both = edited(args.folder, args.rounds)
        runs.append([*tables, many, drawn(args.folder, args.rounds), *grown(args.folder, args.rounds)])
        shares.append(share)
        kept.append(keep)
        boths.append(both)
    print("fill*: plain C that takes the digits of the logarithm without a branch, as the engine does; 21 is acceptance, 22 weight")
    if args.libcrush:
        print("libcrush: its time for all groups / the engine's fill, with 50 tries also of the inner walk, where its own default is 1;")
        print("- where it cannot have the map alike")
    print()
    for tables in zip(*runs):
        print_table([[span(cells) for cells in zip(*rows)] for rows in zip(*tables)])
        print()
    over = []
    for (call, budget), most in zip(BUDGETS.items(), greatest(shares)):
        over += [call] * (most > budget)
        print(f"an edit of {call} takes at most {most} fills; its budget is {budget}")
    asked = [("return", words, "fills", budget) for _, words, budget in RETURNS] + [("store", words, "loads", budget) for _, words, budget in STORES]
    for (call, words, unit, budget), most in zip(asked, greatest(kept)):
        over += [f"a {call} {words}"] * (most > budget)
        print(f"a {call} {words} takes at most {most} {unit}; its budget is {budget}")
    most = max(map(min, zip(*boths)))
    over += ["any edit"] * (most > BOTH_BUDGET)
    print(f"any edit takes at most {most} times the fills before and after it together; its budget is {BOTH_BUDGET}")
    print(f"all results equal; over budget: {', '.join(over) or 'none'}")
    return 1 if over else 0


if __name__ == "__main__":
    sys.exit(main())
