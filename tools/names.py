#!/usr/bin/env python3
"""Every name in backticks on the pages for reviewers and maintainers, looked up in the sources; DEMANDS.md's quotations, compared with them; and
ARCHITECTURE.md's drawing, compared with crates.txt: it has each crate, and no line that is not a need.

Usage: names.py (from any folder). Looked up are, as docs/ARCHITECTURE.md writes them: `crate`, `crate/Module.name`, `Module.name`, `crate/edit`,
`crate::module::function`, files and folders, and names alone. In backticks may also stand frames, options and expressions: of an expression each
word of four letters or more has to be one of the sources. The last line counts; the status is 1 where something is not there."""
import collections
import os
import pathlib
import re
import sys

ROOT = pathlib.Path(__file__).resolve().parent.parent
PAGES = [ROOT / "docs" / f"{name}.md" for name in ("DEMANDS", "TRACE", "DECISIONS", "ARCHITECTURE", "CONTRIBUTING", "GATE")]
QUOTING, DRAWING = ROOT / "docs" / "DEMANDS.md", ROOT / "docs" / "ARCHITECTURE.md"
WORD = r"[A-Za-z_][\w′'-]*"
# of antt: what has a type or is a record; of Rattle: what is declared, and fields and cases
ANTT = re.compile(rf"^ *(?:(?:pub|abbrev|unfoldable|record|data|use) )*({WORD})(?: [({{].*)? :", re.MULTILINE)
RATTLE = re.compile(rf"\b(?:fn|struct|enum|const|type|mod) ({WORD})")
MEMBER = re.compile(rf"^    (?:pub )?({WORD})\b[:(,]", re.MULTILINE)
COMMENT = re.compile(r"(?:--|//).*")
# what is written in backticks and is no name of the sources: the system's, libcrush's and the toolchain's own
NO_NAMES = {"nanosleep", "libc::read", "sched_yield", "crush.h", "libcrush_place.a", "Need-", "Need-..", "tie.close", "rattle", "logic=proved"}


def files():
    """Every file but what was made."""
    for at, folders, names in os.walk(ROOT):
        is_crate = pathlib.Path(at).parent == ROOT / "crates"
        folders[:] = sorted(name for name in folders if name not in (".git", "target", "__pycache__") and not (is_crate and name == "out"))
        yield from (pathlib.Path(at) / name for name in sorted(names))


class Sources:
    def __init__(self):
        lines = [line.split("#")[0] for line in (ROOT / "crates.txt").read_text().splitlines()]
        self.crates = {line.split()[0].rstrip(":"): line.split(":")[1].split() for line in lines if ":" in line}
        self.texts, self.modules, self.words, self.files = {}, collections.defaultdict(list), set(), []
        self.declared = set(self.crates)
        for path in files():
            place = path.relative_to(ROOT)
            self.files.append(str(place))
            self.declared |= {path.stem, *place.parts[:-1]}
            if path.suffix in (".antt", ".rt"):
                text = self.texts[place] = path.read_text()
                self.words |= set(re.findall(WORD, COMMENT.sub("", text)))
                self.modules[path.stem].append(place)
                self.declared |= self.names(place) | set(MEMBER.findall(text) if path.suffix == ".rt" else ())
            elif path.suffix in (".h", ".c", ".py"):
                self.declared |= set(re.findall(WORD, path.read_text()))

    def names(self, place):
        """What a file declares."""
        return set((ANTT if place.suffix == ".antt" else RATTLE).findall(self.texts[place]))

    def in_crate(self, crate, module, name):
        """Whether a file of a crate of that name, at any depth, declares the name."""
        return any(place.parts[1] == crate and name in self.names(place) for place in self.modules[module])

    def of_rattle(self, path, name):
        """Whether a name stands in the code of a crate: behind the crate's own name a module, or a type with its function."""
        crate, *inside = path
        if crate in self.crates:
            own = [place for place in self.texts if place.parts[:3] == ("crates", crate, "src")]
            near = [place for place in own if not inside or place.stem in (inside[-1], "lib")]
            return any(name in self.names(place) or name == place.stem for place in near)
        return crate in self.declared and name in self.declared

    def has(self, given):
        """Whether what stands in backticks is there; None where it names nothing."""
        if given in NO_NAMES or not re.search(r"[g-zG-Z]", given) or re.match(r"[-.]|(rt|make|bash|python3) |primer-", given):
            return None
        if re.fullmatch(WORD, given):  # what is not declared is a variable of a statement
            return given in self.declared or given in self.words
        if found := re.fullmatch(rf"({WORD}(?:::{WORD})*)::({WORD})", given):
            return self.of_rattle(found[1].split("::"), found[2])
        if found := re.fullmatch(rf"({WORD})/({WORD})\.({WORD})", given):
            if self.in_crate(*found.groups()):
                return True
        if found := re.fullmatch(rf"({WORD})/({WORD})", given):
            crate, name = found.groups()
            if crate in self.crates and ((ROOT / "crates" / crate / "must-fail" / f"{name}.edit").is_file()
                                         or any(place.parts[1] == crate for place in self.modules[name])):
                return True
        if found := re.fullmatch(rf"({WORD})\.({WORD})", given):
            module, name = found.groups()
            if self.modules[module] and name not in ("antt", "rt"):
                return any(name in self.names(place) for place in self.modules[module])
            if module[0].isupper() and {module, name} <= self.declared:
                return True
        if found := re.fullmatch(rf"{WORD}\.{WORD}\.({WORD})", given):  # a module that the checker makes
            return found[1] in self.declared or found[1] in self.words
        if re.fullmatch(r"[\w.+/-]+", given):
            return "target/" in given or (ROOT / given).exists() or given.rstrip("/") in self.crates or any(
                file.endswith("/" + given) for file in self.files)
        return all(word in self.words or word in self.declared for word in re.findall(WORD, given) if len(word) > 3)


def plain(text):
    return re.sub(r"\s+", " ", text)


def statements(text):
    """What the fenced blocks of a page quote: a line with those below it that are indented."""
    for block in re.findall(r"^```\n(.*?)^```", text, re.MULTILINE | re.DOTALL):
        for statement in re.findall(r"^\S.*\n(?:[ ].*\n)*", block, re.MULTILINE):
            yield plain(statement).strip()


def drawn(crates):
    """What is wrong in the drawing of the crates."""
    lines = re.findall(rf"^ +({WORD})(?: (-->|-\.->) ({WORD}))?$", re.search(r"^```mermaid\n(.*?)^```", DRAWING.read_text(), re.M | re.S)[1], re.M)
    there = {name for crate, _, other in lines for name in (crate, other)} - {"", "end"}
    yield from (f"drawn, and no crate: {name}" for name in sorted(there - set(crates)))
    yield from (f"a crate, and not drawn: {name}" for name in sorted(set(crates) - there))
    yield from (f"drawn, and no need: {crate} to {other}" for crate, line, other in lines if line and other not in crates.get(crate, ()))


def main():
    sources, looked, wrong = Sources(), 0, []
    for page in PAGES:
        text = re.sub(r"^```.*?^```", lambda block: "\n" * block[0].count("\n"), page.read_text(), flags=re.MULTILINE | re.DOTALL)
        for found in re.finditer(r"`([^`]+)`", text):
            given = plain(found[1])
            there = sources.has(given)
            looked += there is not None
            if there is False:
                wrong.append(f"{page.relative_to(ROOT)}:{text.count(chr(10), 0, found.start()) + 1}: not in the sources: {given}")
    quoted, whole = 0, [plain(text) for text in sources.texts.values()]
    for statement in statements(QUOTING.read_text()):
        quoted += 1
        if not any(statement in text for text in whole):
            wrong.append(f"{QUOTING.relative_to(ROOT)}: quoted, and not in the sources: {statement}")
    wrong += [f"{DRAWING.relative_to(ROOT)}: {what}" for what in drawn(sources.crates)]
    for line in wrong:
        print(line)
    print(f"names: {looked} looked up on {len(PAGES)} pages, {quoted} statements compared, {len(wrong)} wrong")
    return 1 if wrong else 0


if __name__ == "__main__":
    sys.exit(main())
