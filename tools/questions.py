#!/usr/bin/env python3
"""Writes the questions and refusals of docs/questions.tsv into the files that tell them, each block between two lines that stand there.

  questions.py            writes the files that differ
  questions.py --check    writes nothing: names each file that differs with its first such line, and ends with status 1

The numbers and their order are compared with the definitions, Load.antt and Calls.antt; that the sentences say what these ask is for people to read.
The last line counts."""
import collections
import pathlib
import re
import sys
import textwrap

ROOT = pathlib.Path(__file__).resolve().parent.parent
TABLE = "docs/questions.tsv"
WIDE = 150  # columns of a line in the header and in show.py
Row = collections.namedtuple("Row", "number after question wrong do")


def read_table():
    names, *lines = (ROOT / TABLE).read_text().splitlines()
    if names.split("\t") != list(Row._fields):
        sys.exit(f"{TABLE}:1: the columns are {', '.join(Row._fields)}")
    for at, line in enumerate(lines, 2):
        # what C, Python, mdoc or Markdown would have to escape is not there
        if not re.fullmatch(r"\d+(\t[^\t]+){4}", line) or re.search(r"""["\\|<`*]|\t[.']|[^\t -~]""", line):
            sys.exit(f"{TABLE}:{at}: it is to have a number and four texts, of ASCII without \" \\ | < ` and *, with a tab between each")
    return [Row(*line.split("\t")) for line in lines]


def defined():
    """The numbers in the order in which the definitions ask them: load's, then each call's, led by what is asked before: `-` is nothing."""
    load, calls = ((ROOT / "crates/definitions/specs" / name).read_text() for name in ("Load.antt", "Calls.antt"))
    texts = re.findall(r"^(?:text|map)_questions .*?\[\]", load, re.MULTILINE | re.DOTALL)
    orders = [["-", *re.findall(r"\((\d+), ", "".join(texts))]]
    for behind_load, text in re.findall(r"(after_load \(load_number \w+\) \()?first_no\s+(\(.*?\[\])", calls, re.DOTALL):
        orders.append([orders[0][-1] if behind_load else "-", *re.findall(r"\((\d+), ", text)])
    return orders


def compare(table, orders):
    """That the table has the numbers of the definitions, none before one that is asked before it, and tells those asked just before it."""
    before = collections.defaultdict(set)
    for order in orders:
        for first, second in zip(order, order[1:]):
            before[second].add(first)
    numbers = [row.number for row in table]
    if sorted(numbers) != sorted(before):
        sys.exit(f"{TABLE} has the numbers {', '.join(numbers)}, and the definitions have {', '.join(before)}")
    for at, row in enumerate(table):
        asked = before[row.number]
        if set(re.findall(r"\d+|-", row.after)) != asked or not asked <= {"-", *numbers[:at]}:
            sys.exit(f"{TABLE}:{at + 2}: by the definitions {row.number} is asked after {' or '.join(sorted(asked))}: tell that, and put it behind")


# ---- the blocks, as lines

def questions(rows):
    yield " *"
    for row in rows:
        yield from textwrap.wrap(row.question, WIDE, initial_indent=f" *   {row.number:>2}  ", subsequent_indent=" *       ", break_on_hyphens=False)
    yield " *"


def cases(rows):
    for row in rows:
        yield from (f"    case {row.number}:", f'        return "{row.wrong}";')


def string(lead, words, end):
    """A string of Python behind a lead, in pieces below each other where it is long."""
    pieces = textwrap.wrap(words, WIDE - 16, break_on_hyphens=False, drop_whitespace=False)
    return [f'{" " * len(lead) if at else lead}"{piece}"{end if at == len(pieces) - 1 else ""}' for at, piece in enumerate(pieces)]


def tables(rows, load):
    yield from ("# what is wrong by each number, and what to do", "REFUSALS = {")
    for row in rows:
        lead = f"    {row.number}: ("
        yield from string(lead, row.wrong, ",") + string(" " * len(lead), row.do, "),")
    yield from ("}", "", "# load's questions in the engine's order, without the notes behind them", "QUESTIONS = {")
    for row in load:
        yield from string(f"    {row.number}: ", re.match(r".*?\?", row.question)[0], ",")
    yield "}"


def programs_list(rows):
    yield ".Bl -tag -width Ds"
    for row in rows:
        yield f".It Li 1f{int(row.number):02x} Pq {row.number}"
        yield from (words[0].upper() + words[1:] + "." for words in (row.wrong, row.do))
    yield ".El"


def markdown(rows):
    yield from ("", "| Printed | Number | Asked after | The question | What is wrong | What to do |", "|---|---|---|---|---|---|")
    for row in rows:
        yield f"| `1f{int(row.number):02x}` | {' | '.join(row)} |"
    yield ""


def blocks(table, load):
    """By file the blocks: the line before it, the line behind it, and what stands between them."""
    asked, own = ([row for row in table if (row.number in load) == of_load] for of_load in (True, False))
    by_number = sorted(table, key=lambda row: int(row.number))
    made, mdoc = "made of docs/questions.tsv by tools/questions.py:", '.\\" questions:'
    return {
        "include/crush_place.h": (
            (" * Load's questions, in the order in which they are put, which is not that of their numbers, each to the whole map before the next:",
             " * Some calls answer with these numbers, others with 14 for all of them; crush_sizes_of then says which it was.", questions(asked)),
            (" * The calls' own questions, in the order in which they are put. Each call says which of them it puts, and what 16 wants room for:",
             " * G is the number of groups of the map, W the width of its lists.", questions(own)),
            (f"    /* {made} begin */", f"    /* {made} end */", cases(by_number))),
        "tools/show.py": ((f"# {made} begin", f"# {made} end", tables(by_number, asked)),),
        "docs/crush_place.3": ((f"{mdoc} begin", f"{mdoc} end", (line for row in table for line in (f".It {row.number}", row.wrong))),),
        "docs/fill.1": ((f"{mdoc} begin", f"{mdoc} end", programs_list(table)),),
        "docs/OPERATING.md": (("<!-- questions: begin -->", "<!-- questions: end -->", markdown(table)),),
    }


def main():
    check = sys.argv[1:] == ["--check"]
    if sys.argv[1:] and not check:
        sys.exit("usage: questions.py [--check]")
    table, orders = read_table(), defined()
    compare(table, orders)
    files, differing = blocks(table, orders[0]), {}
    for name, parts in files.items():
        old = new = (ROOT / name).read_text().split("\n")
        for before, behind, block in parts:
            if new.count(before) != 1 or behind not in new[new.index(before):]:
                sys.exit(f"{name}: it is to have the line {before!r} once, and behind it {behind!r}")
            start = new.index(before) + 1
            new = new[:start] + list(block) + new[new.index(behind, start):]
        if new != old:
            differing[name] = new
            at = next(at for at, (here, there) in enumerate(zip(old, new)) if here != there)
            print(f"{name}:{at + 1}: {old[at]!r}, and by the table {new[at]!r}" if check else f"{name}: written")
    for name, lines in differing.items():
        if not check:
            (ROOT / name).write_text("\n".join(lines))
    wrong = len(differing) if check else 0
    state = f"{wrong} of them not as the table says; `python3 tools/questions.py` writes them" if wrong else "all as the table says"
    print(f"questions: {len(table)} in {len(files)} files, {state}")
    return 1 if wrong else 0


if __name__ == "__main__":
    sys.exit(main())
