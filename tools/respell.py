#!/usr/bin/env python3
"""Gives the definitions and lemmas of this repository the spelling of today's Rattle, where port.py leaves it as it was.

usage: python3 tools/respell.py        once, at the top, behind port.py

In the sources, specs and proofs under crates/ each word like mapOf becomes map_of: names of types, facts and variants, which begin with a capital, and
names of functions, which are so already, stay. A lemma whose name falls together with the definition that it is about takes _lem, as CONTRACT_STYLE.md
says, and firstOf, which falls together with a tactic, becomes firsts_of. What must-fail edits and pages say of these names follows: there the names
that port.py respelled are respelled too, in pages only between backticks.
"""
import glob
import os
import re

# names of std's own, of a page's other languages and of drawings
KEPT = {"viewBox", "markerWidth", "markerHeight", "refX", "refY"}
# what port.py respelled, as it said: a library had the same spelling
TURNED = """
above-root action-spec add-a add-at add-r add-spec add-total add-wide add-words adds-then afterTurn alike-spec all-left all-map all-yes alone-at
and-both and-no as-many askedOf at-after at-bare at-before at-c at-each at-listed at-mem at-most at-new at-old at-own at-place at-some at-with at-zero
bad-kind below-holds blockOf bool-false both-run by-blocks by-kind by-left by-length by-number by-right by-shape by-zero byte-small byteOf bytes-cut
bytesOf callOf caseOf chain-more copy-spec count-fits count-most count-same count-spec countOf counted-none counted-spec differ-same digit-lt
digit-shift digits-in distinct-head distinct-tail div-below each-at each-fits each-more each-none end-low end-none endOf enter-spec entry-at entryAt
enum-told every-append every-drop every-first every-map every-take every-two exact-below fieldsOf fill-done fill-meets fill-spec filled-at filled-more
filled-none find-spec first-below first-block first-good first-next firstOf firsts-more fit-next fits-count fits-head fitsBy fitted-none fork-ends
found-none frame-at frameOf from-all from-last from-more front-length getD-set grows-end grows-none has-either has-end has-here has-kept held-after
held-first held-more held-new held-next held-none held-start heldAt heldOf in-b in-blocks in-list in-order inner-made is-le is-plain is-same isHeld
isWhole itemsOf kept-append kept-more kept-same key-spec keyAt keyOf kindOf known-more known-next labelOf laid-kept laid-more laid-none landed-made
last-end lastOf left-lt left-step length-at length-front length-over length-two lent-row line-at line-first line-frame line-kept lineOf lines-split
linesOf link-at linkIn list-length listedAt liveIn load-part load-spec loadOf look-spec made-all made-more made-none made-nothing made-so map-is
map-same map-whole mark-spec mask-one meet-below move-row moveAt moveLine moveOf moved-sum movesOf mul-at mul-holds mul-next mul-wide mul-words
namedBy namedOf namesOf new-is no-kind no-test noLink none-before none-below none-here none-left none-more none-seen not-last not-through number-at
number-is number-more old-row one-answer one-block one-index one-last one-less one-more one-place one-spec only-above or-swap orElse orderOf out-at
out-one own-put part-filled part-length part-none partAt partOf parts-are paste-more pick-spec place-end place-here placeOf placedOf placesAt
product-lt product-small put-back put-count put-is put-other put-step put-typed putAll rank-below rankAt rankOf read-at read-fits reads-old returns-is
returns-to right-lt room-for row-field row-is row-more row-move row-of row-put row-room row-small rowAt rowIn rowLine rowLines rowOf rows-all rows-are
rows-more rows-none rows-split rowsAt rowsTo run-none run-spec run-step run-take runAt same-after same-at same-end same-kept same-length same-map
same-more same-next same-rows same-stop same-test same-turn says-none seen-more shapeOf shiftedBy sizeOf slot-small slotAt slotOf some-at some-end
some-next some-or-none sorted-more spaceOf spot-is spotOf stands-after stands-on start-spec step-count step-in step-other step-small step-spec
steps-all store-by store-other store-spec store-told storeOf stored-same sub-at sub-holds sum-bound sum-mono sum-more sum-room sum-to sumAt sumTo
sums-at table-more tableOf take-part tells-more tells-none test-at test-below test-by test-short testOf textOf to-none to-same to-start told-is
told-none told-same told-under totalOf totalled-more totalled-none tree-is treeOf turn-at turn-below turn-spec turnOf typeBy typeOf typed-spec
types-are types-more types-of typesAt typesIn up-to upTo valuesOf viewOf whole-is widened-small width-is width-spec widthOf withSum word-more wordOf
wordsOf write-meets write-spec written-as written-at written-none written-read writtenOf
""".split()
# lemmas that fall together with a definition: the file where each is defined, and the name as port.py leaves it
LEMMAS = {"store_by": "history.specs.Calls", "count_fits": "keeping.specs.States", "row_move": "tracing.specs.Moves", "in_blocks": "laws.specs.Loadable",
          "step_in": "members.specs.Present"}
# two indices of a proof that fall together with definitions, in the one file that has them
INDICES = {"crates/walk/proofs/+rank_test_turn/Proof.antt": {"test_at": "test_index", "turn_at": "turn_index"}}


def snake(word):
    return re.sub(r"(?<=[a-z0-9])([A-Z])", lambda m: "_" + m.group(1).lower(), word)


def camels(text):
    return re.sub(r"(?<![A-Za-z0-9_'])[a-z][a-z0-9]*(?:[A-Z][a-z0-9]*)+(?![A-Za-z0-9_])", lambda m: m.group(0) if m.group(0) in KEPT else snake(m.group(0)), text)


def whole(name):
    return re.compile(r"(?<![\w.'-])" + re.escape(name) + r"(?![\w'-])(?!\.\w)")


def lemmas(path, text):
    for name, module in LEMMAS.items():
        here = path == "crates/" + module.replace(".", "/") + ".antt"
        if here or re.search(r"Rattle\." + re.escape(module) + r"\.\{[^}]*(?<![\w-])" + name + r"(?![\w-])", text):
            text = whole(name).sub(name + "_lem", text)
    for name, to in INDICES.get(path, {}).items():
        text = whole(name).sub(to, text)
    return text


def turned(text):
    """The names that port.py respelled, in a text that it did not turn."""
    for name in TURNED:
        to = snake(name).replace("-", "_")
        text = re.sub(r"(?<![\w'-])" + re.escape(name) + r"(?![\w-])", to, text)
    return text


def first(text):
    """firstOf is first_of behind port.py, which is a tactic's name."""
    return re.sub(r"(?<![\w'-])first(_o|O)f(?![\w'])", "firsts_of", text)


def code(text):
    return camels(first(text))


def page(text):
    return re.sub(r"`[^`\n]+`", lambda m: camels(first(turned(m.group(0).replace("′", "'")))), text)


def main():
    for kind, turn in (("rt", code), ("antt", code), ("edit", lambda t: code(turned(t.replace("′", "'"))))):
        for path in sorted(glob.glob(f"crates/**/*.{kind}", recursive=True)):
            if "/out/" in path:
                continue
            with open(path, encoding="utf-8") as f:
                old = f.read()
            new = turn(lemmas(path, old) if kind == "antt" else old)
            if new != old:
                with open(path, "w", encoding="utf-8") as f:
                    f.write(new)
    for path in ["README.md"] + sorted(glob.glob("docs/*.md")):
        if os.path.basename(path) == "PORT.md":
            continue
        with open(path, encoding="utf-8") as f:
            old = f.read()
        new = page(old)
        if new != old:
            with open(path, "w", encoding="utf-8") as f:
                f.write(new)


main()
