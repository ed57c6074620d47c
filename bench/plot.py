#!/usr/bin/env python3
"""Draws how fill's time grows, as SVG: a panel for each number that grows, with the engine and plain C.

usage: plot.py GROWTH_JSON OUT_SVG"""
import json
import pathlib
import sys

WIDTH, HEIGHT, LEFT, TOP = 300, 220, 56, 48  # of a panel, and the room at its left and above it
SERIES = (("engine", "#1f5fa8"), ("plain C", "#b5541c"))


def nice(most):
    """The least of 1, 2, 4, 6, 8, 10, 20, .. that is not below it: where the axis ends."""
    step = 10 ** -9
    while True:
        for k in (1, 2, 4, 6, 8):
            if step * k >= most:
                return step * k
        step *= 10


def text(x, y, words, anchor="middle", size=11):
    return f'<text x="{x:.1f}" y="{y:.1f}" text-anchor="{anchor}" font-size="{size}">{words}</text>'


def line(x1, y1, x2, y2, colour="#999"):
    return f'<line x1="{x1:.1f}" y1="{y1:.1f}" x2="{x2:.1f}" y2="{y2:.1f}" stroke="{colour}"/>'


def panel(left, growth):
    points = growth["points"]
    most = nice(max(max(engine, plain) for _, engine, plain in points) / 1e6)
    last = points[-1][0]
    x = lambda n: left + WIDTH * n / last
    y = lambda ms: TOP + HEIGHT * (1 - ms / most)
    out = [line(left, TOP + HEIGHT, left + WIDTH, TOP + HEIGHT), line(left, TOP, left, TOP + HEIGHT)]
    for i in range(5):
        ms = most * i / 4
        out += [line(left - 4, y(ms), left, y(ms)), text(left - 7, y(ms) + 4, f"{ms:g}", "end")]
    for n, _, _ in points:
        out.append(line(x(n), TOP + HEIGHT, x(n), TOP + HEIGHT + 4))
    for n, _, _ in points[-3:]:
        out.append(text(x(n), TOP + HEIGHT + 17, f"{n:,}"))
    out += [text(left + WIDTH / 2, TOP + HEIGHT + 34, growth["name"], size=12), text(left + WIDTH / 2, TOP - 14, growth["title"])]
    for k, (_, colour) in enumerate(SERIES):
        track = " ".join(f"{x(p[0]):.1f},{y(p[1 + k] / 1e6):.1f}" for p in points)
        out.append(f'<polyline points="{track}" fill="none" stroke="{colour}" stroke-width="1.5"/>')
        out += [f'<circle cx="{x(p[0]):.1f}" cy="{y(p[1 + k] / 1e6):.1f}" r="3" fill="{colour}"/>' for p in points]
    return out


def main():
    growths = json.loads(pathlib.Path(sys.argv[1]).read_text())
    width, height = LEFT + len(growths) * (WIDTH + LEFT), TOP + HEIGHT + 48
    out = [f'<svg xmlns="http://www.w3.org/2000/svg" width="{width}" height="{height}" font-family="sans-serif">']
    out += [f'<rect width="{width}" height="{height}" fill="white"/>', text(LEFT - 44, 16, "time of fill, milliseconds", "start", 12)]
    for k, (name, colour) in enumerate(SERIES):
        out += [f'<circle cx="{240 + 90 * k}" cy="12" r="3" fill="{colour}"/>', text(250 + 90 * k, 16, name, "start", 12)]
    for i, growth in enumerate(growths):
        out += panel(LEFT + i * (WIDTH + LEFT), growth)
    pathlib.Path(sys.argv[2]).write_text("\n".join(out + ["</svg>"]) + "\n")


if __name__ == "__main__":
    sys.exit(main())
