#!/usr/bin/env python3
"""The edges of programs `fill` and `operate`, which no proof reaches: writes and reads that fail, that are not ready, and that come late.

Usage: edges.py PROGRAM (from the repository's root). Each case says what standard output and standard error have to be."""
import os, resource, signal, socket, subprocess, sys, threading, time, tty

PROGRAM = sys.argv[1]
NAME = os.path.basename(PROGRAM)
MAP = open("crates/fill/stdin", "rb").read().split(b"\n050007\n")[0] + b"\n050007\n"
ROWS = b"11000000000000ffff\n11000000010000ffff\n"
EDIT = b"21000000000000\n"
MOVES = b"1300000000010000ffff01\n1300000001010000ffff01\n"
# the example archive with 8,192 groups: more rows than a pipe holds
LARGE = b"0000002000\n" + open("examples/archive.map", "rb").read().split(b"\n", 1)[1]
ALL = subprocess.run([PROGRAM], input=LARGE, stdout=subprocess.PIPE).stdout
# what the program answers to a line `2d`: the rows, or that it does not know it
TABLE = b"2d\n"
TOLD = {"fill": b"1f12\n", "operate": ALL}[NAME]
BACK = b"21000000010000"
BACKED = subprocess.run([PROGRAM], input=MAP + EDIT + BACK, stdout=subprocess.PIPE).stdout[len(ROWS + MOVES) :]
WAIT = 20
wrong = 0


def expect(name, got, want):
    global wrong
    if got != want:
        wrong += 1
        print(f"edges of {NAME}: {name}: {got!r:.200}, and not {want!r:.200}")


def reason(direction, words):
    return f"{NAME}: cannot {direction}: {words}\n".encode()


def run(stdin, stdout, **more):
    """Starts the program and answers the process; both ends are its own from then on."""
    process = subprocess.Popen([PROGRAM], stdin=stdin, stdout=stdout, stderr=subprocess.PIPE, **more)
    for end in (stdin, stdout):
        if isinstance(end, int) and end > 2:
            os.close(end)
    return process


def ended(process):
    """What the program told on standard error, once it has ended."""
    try:
        return process.communicate(timeout=WAIT)[1]
    except subprocess.TimeoutExpired:
        process.kill()
        return b"(does not end)"


def take(end, count):
    """count bytes from a descriptor, or what there is of them after a while."""
    got = b""
    def reading():
        nonlocal got
        while len(got) < count:
            more = os.read(end, count - len(got))
            if not more:
                return
            got += more
    reader = threading.Thread(target=reading, daemon=True)
    reader.start()
    reader.join(WAIT)
    return got


def given(data):
    """A file that holds the data, from its start on."""
    with open("target/edges.in", "wb") as file:
        file.write(data)
    return os.open("target/edges.in", os.O_RDONLY)


def rest(end):
    got = take(end, 1 << 30)
    os.close(end)
    return got


# output that fails, of rows and of a refusal
for name, data in (("rows", LARGE), ("a refusal", b"")):
    told = ended(run(given(data), os.open("/dev/full", os.O_WRONLY)))
    expect(f"full device, {name}", told, reason("write standard output", "No space left on device"))
closed = subprocess.run(["bash", "-c", f"{PROGRAM} <examples/archive.map >&-"], stderr=subprocess.PIPE, timeout=WAIT)
expect("closed output", closed.stderr, reason("write standard output", "Bad file descriptor"))

# the reader gone: told, also where SIGPIPE is not ignored, since a program of the kit ignores it as it begins
for ignored in (True, False):
    out, put = os.pipe()
    process = run(given(LARGE), put, restore_signals=not ignored)
    expect("reader gone, its row", take(out, 23), ALL[:23])
    os.close(out)
    expect("reader gone, told", ended(process), reason("write standard output", "Broken pipe"))
    expect("reader gone, status", process.returncode, 0)

# output limited in size, in the first rows and in what a line leads to: a part of a write is taken, and the next fails
for name, most in (("rows", 100), ("the answer to a line", len(ALL) + len(TOLD) - 2)):
    limit = lambda: (signal.signal(signal.SIGXFSZ, signal.SIG_IGN), resource.setrlimit(resource.RLIMIT_FSIZE, (most, most)))
    written = os.open("target/edges.out", os.O_WRONLY | os.O_CREAT | os.O_TRUNC)
    process = run(given(LARGE + TABLE + EDIT), written, preexec_fn=limit, restore_signals=False)
    expect(f"limited output, {name}, told", ended(process), reason("write standard output", "File too large"))
    expect(f"limited output, {name}", open("target/edges.out", "rb").read(), (ALL + TOLD)[:most])

# input that fails: from the start, and in an edit, which is then not made
out, put = os.pipe()
expect("input is a directory", ended(run(os.open(".", os.O_RDONLY), put)), reason("read standard input", "Is a directory"))
expect("input is a directory, output", rest(out), b"")
closed = subprocess.run(["bash", "-c", f"{PROGRAM} <&-"], stdout=subprocess.PIPE, stderr=subprocess.PIPE, timeout=WAIT)
expect("closed input", (closed.stdout, closed.stderr), (b"", reason("read standard input", "Bad file descriptor")))
far, near = os.openpty()
tty.setraw(near)
out, put = os.pipe()
process = run(near, put)
os.write(far, MAP)
expect("lost terminal, rows", take(out, len(ROWS)), ROWS)
os.write(far, EDIT[:-1])
time.sleep(0.2)
os.close(far)
expect("lost terminal, told", ended(process), reason("read standard input", "Input/output error"))
expect("lost terminal, output", rest(out), b"")

# input that comes late: rows once the map is whole, moves once the line is, the unended line at the end
for blocking in (True, False):
    there, put_in = os.pipe()
    out, put_out = os.pipe()
    os.set_blocking(there, blocking)
    os.set_blocking(put_out, blocking)
    process = run(there, put_out)
    time.sleep(0.1)
    os.write(put_in, MAP[:-1])
    time.sleep(0.1)
    os.write(put_in, MAP[-1:])
    expect(f"late, blocking {blocking}, rows", take(out, len(ROWS)), ROWS)
    os.write(put_in, EDIT[:6])
    time.sleep(0.1)
    os.write(put_in, EDIT[6:])
    expect(f"late, blocking {blocking}, moves", take(out, len(MOVES)), MOVES)
    os.write(put_in, b"x\n" + BACK)
    expect(f"late, blocking {blocking}, refusal", take(out, 5), b"1f12\n")
    os.close(put_in)
    expect(f"late, blocking {blocking}, unended edit", rest(out), BACKED)
    expect(f"late, blocking {blocking}, told", ended(process), b"")

# a byte at a time
there, put_in = os.pipe()
out, put_out = os.pipe()
process = run(there, put_out)
for byte in open(f"crates/{NAME}/stdin", "rb").read():
    os.write(put_in, bytes([byte]))
    time.sleep(0.001)
os.close(put_in)
expect("a byte at a time", rest(out), open(f"crates/{NAME}/stdout", "rb").read())
expect("a byte at a time, told", ended(process), b"")

# an output that is not ready, a socket too
for name, (out, put) in (("pipe", os.pipe()), ("socket", [end.detach() for end in socket.socketpair()])):
    os.set_blocking(put, False)
    process = run(given(LARGE + TABLE), put)
    time.sleep(0.5)
    expect(f"slow reader of a {name}", rest(out), ALL + TOLD)
    expect(f"slow reader of a {name}, told", ended(process), b"")

print(f"edges of {NAME}: {wrong} wrong")
sys.exit(wrong != 0)
