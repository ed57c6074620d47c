#!/usr/bin/env python3
"""Every command that a page shows, run and compared with the output below it.

Usage: commands.py [PAGE..] (from any folder; target/bin and target/staticlib have been made); without PAGE the README, docs/*.md and the manual pages.

A fenced block with a line that begins with `$ ` has commands: each goes on in the next line where it ends in a backslash, and the lines below it are
what it prints, standard error too. The blocks of a page are run in order by one bash, in a copy of the root that has target/bin and target/staticlib
but nothing else under target/, so that a page makes what it uses. A block that is opened by `must-fail CRATE/EDIT` shows what the prover says of
that edit. To prove again takes longer than all commands, so only the first error is looked for among its lines, as far as the gate's log has it.

Of a command in running text, in backticks, its program has to be there: a file, a target of the Makefile, or a command of `rt`, which docs/CHANGES.md
may name as it was called then. The examples of a manual page of section 1 are run where its programs are installed, beside the example archive, and
have to succeed; one of section 3 has to be a command of a page. What needs a program that is not installed is left out, and said. The last line
counts; the status is 1 where something is wrong."""
import difflib
import os
import pathlib
import re
import shutil
import signal
import subprocess
import sys
import tempfile
import threading

ROOT = pathlib.Path(__file__).resolve().parent.parent
MARK = "-- end of command --"
SLOW = 60  # seconds: a command that takes longer, on a slow machine too, does not belong on a page
OPTIONAL = ("gdb", "pkg-config")  # what some machines lack
# words as the pages have them, also where make runs this
ENVIRONMENT = {name: value for name, value in os.environ.items() if not name.startswith(("MAKE", "MFLAGS", "LC_", "LANG"))} | {"LC_ALL": "C.UTF-8"}
wrong = []


def blocks_of(text):
    """The fenced blocks of a page: how each is opened, and its lines with the number of the first."""
    opened, lines, start = None, [], 0
    for at, line in enumerate(text.splitlines(), 1):
        if not line.startswith("```"):
            lines.append(line)
        elif opened is None:
            opened, lines, start = line[3:].strip(), [], at + 1
        else:
            yield opened, start, lines
            opened = None


def commands_of(start, lines):
    """Each command with the number of its line and the lines below it."""
    found, goes_on = [], False
    for at, line in enumerate(lines, start):
        if goes_on:
            found[-1][1] += "\n" + line
        elif line.startswith("$ "):
            found.append([at, line[2:], []])
        elif found:
            found[-1][2].append(line)
            continue
        goes_on = line.endswith("\\")
    return found


def examples_of(text):
    """The commands of a manual page's examples."""
    found = re.search(r"^\.Sh EXAMPLES\n(.*?)^\.Sh ", text, re.MULTILINE | re.DOTALL)
    start = text.count("\n", 0, found.start(1)) + 1
    return [[at, line[4:], []] for at, line in enumerate(found[1].splitlines(), start) if line.startswith(".Dl ")]


def fault(page, at, what):
    wrong.append(f"{page}:{at}: {what}")


def lacking(page, lines):
    """Whether a block needs a program that is not installed."""
    missing = [name for name in OPTIONAL if name in "\n".join(lines) and not shutil.which(name)]
    if missing:
        print(f"left out: a block of {page}, without {', '.join(missing)}")
    return bool(missing)


def copy_of_root(folder):
    """The root by links, with a target/ of its own."""
    for path in ROOT.iterdir():
        if path.name not in ("target", ".git"):
            (folder / path.name).symlink_to(path)
    (folder / "target").mkdir()
    for name in ("bin", "staticlib"):
        (folder / "target" / name).symlink_to(ROOT / "target" / name)


def installed(folder):
    """The programs under their names, and the example archive."""
    (folder / "bin").mkdir()
    for program in (ROOT / "target/bin/fill", ROOT / "target/bin/operate", ROOT / "tools/show.py"):
        (folder / "bin" / program.name).symlink_to(program)
    for name in ("archive.map", "archive.names"):
        shutil.copy(ROOT / "examples" / name, folder)


def answer(bash, command):
    """The lines that a command prints; None where bash has ended, by itself or because the command takes too long."""
    watch, got = threading.Timer(SLOW, os.killpg, (bash.pid, signal.SIGKILL)), []
    watch.start()
    bash.stdin.write(f"{{ {command}\n}} </dev/null\necho '{MARK}'\n")
    bash.stdin.flush()
    for line in bash.stdout:
        if line == MARK + "\n":
            watch.cancel()
            return got
        got.append(line.rstrip("\n"))
    watch.cancel()
    return None


def run(page, commands, prepare=copy_of_root):
    """Runs the commands of a page in one bash."""
    with tempfile.TemporaryDirectory() as name:
        prepare(pathlib.Path(name))
        streams = {"stdin": subprocess.PIPE, "stdout": subprocess.PIPE, "stderr": subprocess.STDOUT}
        bash = subprocess.Popen(["bash"], cwd=name, env=ENVIRONMENT, text=True, start_new_session=True, **streams)
        for at, command, want in commands:
            got = answer(bash, command)
            if got is None:
                fault(page, at, f"ended bash, or took longer than {SLOW} seconds: {command}")
                break
            if got != want:
                fault(page, at, "\n".join([command, *difflib.unified_diff(want, got, "shown", "printed", lineterm="")]))
        bash.stdin.close()
        bash.wait()


def look_up(page, edit, commands):
    """Looks for the first error of a must-fail edit, as the gate's log has it, among the lines shown."""
    log = ROOT / "target" / "gate.log"
    refused = rf"^rt: must-fail {edit}\.edit: refused, as it must be: (?:note: )?(?:\./)?(.*)"
    said = re.search(refused, log.read_text() if log.exists() else "", re.MULTILINE)
    if not said:
        print(f"left out: {page} shows the must-fail edit {edit}, and the gate has not refused it yet")
        return 0
    if not any(line.removeprefix("note: ").removeprefix("./").startswith(said[1]) for _, _, want in commands for line in want):
        fault(page, commands[0][0], f"the prover says first of {edit}: {said[1]}")
    return len(commands)


def named_programs(page, text, makes, proves):
    """Looks for the programs of commands in running text."""
    count = 0
    for at, line in enumerate(text.splitlines(), 1):
        for words in re.findall(r"`((?:bash|python3|rt|make)(?: [^`]+)?)`", line):
            program, *rest = words.split()
            first = rest[0] if rest else None
            count += 1
            if program == "rt":
                there = first is None or first in proves or page == "CHANGES.md"
            elif program == "make":
                there = all(word in makes or "=" in word for word in rest)
            else:
                there = first is None or first.startswith("-") or (ROOT / first).is_file()
            if not there:
                fault(page, at, f"no such command: {words}")
    return count


def markdown(page, shown):
    """Runs the commands of a page, and tells how many; `shown` gets them all."""
    here, looked_up = [], 0
    for opened, start, lines in blocks_of(page.read_text()):
        commands = commands_of(start, lines)
        shown |= {command for _, command, _ in commands}
        if opened.startswith("must-fail "):
            looked_up += look_up(page.name, opened.split()[1], commands)
        elif not lacking(page.name, lines):
            here += commands
    run(page.name, here)
    return len(here) + looked_up


def manual(page, shown):
    """Runs the examples of a manual page, of which only the status is looked at, or looks for them among those shown."""
    examples = examples_of(page.read_text())
    if page.suffix == ".1":
        run(page.name, [[at, f"export PATH=$PWD/bin:$PATH; ({command}) >printed || echo failed", []] for at, command, _ in examples], installed)
        return len(examples)
    for at, command, _ in examples:
        if command not in shown:
            fault(page.name, at, f"no page has this command: {command}")
    return 0


def main():
    docs = ROOT / "docs"
    pages = [pathlib.Path(word) for word in sys.argv[1:]] or [ROOT / "README.md", *sorted(docs.glob("*.md")), *sorted(docs.glob("*.[13]"))]
    makes = set(re.findall(r"^(\w+):", (ROOT / "Makefile").read_text(), re.MULTILINE))
    told = subprocess.run(["rt", "help"], stdout=subprocess.PIPE, stderr=subprocess.STDOUT, text=True).stdout
    proves = {verb for verbs in re.findall(r"^(?:usage:| ) *rt ([\w|-]+)", told, re.MULTILINE) for verb in verbs.split("|")}
    ran, named, shown = 0, 0, set()
    for page in pages:
        ran += (markdown if page.suffix == ".md" else manual)(page, shown)
        named += named_programs(page.name, page.read_text(), makes, proves)
    for what in wrong:
        print(what)
    print(f"commands: {ran} run and {named} named on {len(pages)} pages, {len(wrong)} wrong")
    return 1 if wrong else 0


if __name__ == "__main__":
    sys.exit(main())
