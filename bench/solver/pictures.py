#!/usr/bin/env python3
"""Turns the rows of run.sh into the table and the averages of docs/SPEED.md, on standard output: pictures.py ROWS OUT [LIMIT]

It also writes two pictures: OUT/run.svg has the seconds of `run` over those of MiniSat, OUT/confirm.svg those of `confirm` over those of
`run`. A dot is a formula, and both scales are logarithmic. LIMIT is the number of seconds after which a program was stopped (60).

One filter chooses the rows of all averages: no program was stopped, and `run` or MiniSat took at least 0.05 seconds. Ratios are of the seconds
in the rows.
"""
import math
import os
import sys

SHORT = 0.05  # seconds; rows in which both solvers take less are in no average
LEAST = 0.01  # seconds; shorter times are drawn here
SIDE, LEFT, TOP, RIGHT, BOTTOM = 360, 60, 64, 28, 52
COLOURS = {"UNSATISFIABLE": "#762a83", "SATISFIABLE": "#1b7837"}
INK, PALE = "#222222", "#dddddd"


class Row:
    """One formula. Seconds are `None` where a program was stopped or did not run."""

    def __init__(self, line):
        self.name, self.answer, *rest = line.split()
        number = lambda word: None if word == "-" else float(word)
        self.run, self.run_memory, self.run_conflicts = map(number, rest[:3])
        self.confirm, self.confirm_memory = map(number, rest[3:5])
        self.minisat, self.minisat_memory, self.minisat_conflicts = map(number, rest[5:8])

    def counts(self):
        """Whether the row is one of the averages."""
        return None not in (self.run, self.confirm, self.minisat) and max(self.run, self.minisat) >= SHORT


# The tables.

def seconds(value):
    return f"{value:.3f} s" if value < 0.1 else f"{value:.2f} s"


def cell(value, memory, conflicts=None):
    if value is None:
        return "stopped"
    return f"{seconds(value)}, {memory:.0f} MiB" + ("" if conflicts is None else f", {int(conflicts):,}")


def table(rows):
    print("| Formula | `run` | `confirm` | MiniSat |\n|---|---|---|---|")
    for r in rows:
        name = f"{r.name}, {r.answer.lower()}" if r.answer in COLOURS else r.name
        confirm = "-" if r.run is None else cell(r.confirm, r.confirm_memory)
        print(f"| {name} | {cell(r.run, r.run_memory, r.run_conflicts)} | {confirm} | {cell(r.minisat, r.minisat_memory, r.minisat_conflicts)} |")


def mean(ratios):
    return math.exp(sum(map(math.log, ratios)) / len(ratios))


def ratios(rows, above, below):
    """Returns the mean, the highest and the name of the highest of the ratios `above / below`, as words."""
    found = [(above(r) / below(r), r.name) for r in rows]
    if not found:
        return "none", "none"
    most, name = max(found)
    return f"{mean([value for value, _ in found]):.2f}", f"{most:.2f} ({name})"


def averages(rows):
    """Prints the averages over the rows that count, one sentence each."""
    rows = [r for r in rows if r.counts()]
    run, minisat = lambda r: r.run, lambda r: r.minisat
    print(f"Averages are geometric means over {len(rows)} formulas, or over the stated part of these. The {len(rows)} are the formulas that every program finished, and on which `run` or MiniSat took at least {SHORT} s.\n")
    all_mean, all_most = ratios(rows, run, minisat)
    print(f"- On average, `run` takes **{all_mean}** times MiniSat's time; at worst, {all_most}. In total, `run` takes {sum(map(run, rows)):.0f} s and MiniSat {sum(map(minisat, rows)):.0f} s.")
    for answer, word in (("UNSATISFIABLE", "unsatisfiable"), ("SATISFIABLE", "satisfiable")):
        part = [r for r in rows if r.answer == answer]
        part_mean, part_most = ratios(part, run, minisat)
        luck = "; luck decides how soon a model is found" if word == "satisfiable" else ""
        print(f"- Over the {len(part)} {word} formulas, the ratio averages {part_mean}, and is {part_most} at worst{luck}.")
    fewer = [r for r in rows if r.run_conflicts < r.minisat_conflicts]
    both = [r for r in rows if min(r.run_conflicts, r.minisat_conflicts) >= 1000]
    a_conflict, _ = ratios(both, lambda r: r.run / r.run_conflicts, lambda r: r.minisat / r.minisat_conflicts)
    print(f"- `run` has fewer conflicts than MiniSat on {len(fewer)} of the {len(rows)} formulas. Over the {len(both)} on which both have at least 1,000 conflicts, it takes {a_conflict} times MiniSat's time per conflict.")
    memory, most = ratios(rows, lambda r: r.run_memory, lambda r: r.minisat_memory)
    print(f"- On average, `run` uses {memory} times MiniSat's memory; at worst, {most}.")
    confirm, most = ratios(rows, lambda r: r.confirm, run)
    print(f"- On average, `confirm` takes {confirm} times as long as `run`; at worst, {most}.")


# The pictures.

def ticks(most):
    """Returns 0.01, 0.03, 0.1, 0.3 and so on, up to the highest value."""
    return [step * 10.0**k for k in range(-2, 6) for step in (1, 3) if step * 10.0**k <= most]


def axis(values, stopped):
    """Returns the function from seconds to a place between 0 and 1, and the ticks. The axis ends at the highest value; if a program was
    stopped, there is a band after it, and its place is 1."""
    most = max([v for v in values if v is not None] + [10 * LEAST])
    end = 0.92 if stopped else 1.0
    place = lambda s: 1.0 if s is None else end * math.log(min(max(s, LEAST), most) / LEAST) / math.log(most / LEAST)
    return place, ticks(most), most


def words(x, y, text, anchor="middle", more=""):
    return f'<text x="{x:.1f}" y="{y:.1f}" text-anchor="{anchor}" fill="{INK}"{more}>{text}</text>'


def dot(x, y, answer, title=None):
    stopped = answer not in COLOURS
    paint = f'fill="#ffffff" stroke="{INK}"' if stopped else f'fill="{COLOURS[answer]}" fill-opacity="0.8"'
    inner = f"<title>{title}</title>" if title else ""
    return f'<circle cx="{x:.1f}" cy="{y:.1f}" r="3.5" {paint}>{inner}</circle>'


def legend(points, limit):
    """Returns what the colours mean, in one line under the title."""
    entries = [("UNSATISFIABLE", "unsatisfiable"), ("SATISFIABLE", "satisfiable")]
    stopped = sum(None in point[2:] for point in points)
    if stopped:
        entries.append((None, f"stopped after {limit} s ({stopped})"))
    parts, x = [], LEFT + 4
    for answer, word in entries:
        parts += [dot(x, 42, answer), words(x + 8, 46, word, "start")]
        x += 30 + 6.6 * len(word)
    return parts


def picture(title, across, up, points, limit):
    """Returns a picture of points (name, answer, seconds across, seconds up)."""
    place_x, ticks_x, most_x = axis([p[2] for p in points], any(p[2] is None for p in points))
    place_y, ticks_y, most_y = axis([p[3] for p in points], any(p[3] is None for p in points))
    x = lambda s: LEFT + place_x(s) * SIDE
    y = lambda s: TOP + (1 - place_y(s)) * SIDE
    width, height = LEFT + SIDE + RIGHT, TOP + SIDE + BOTTOM
    parts = [f'<rect width="{width}" height="{height}" fill="#ffffff"/>', words(width / 2, 22, title, more=' font-size="14" font-weight="bold"')]
    parts += legend(points, limit)
    label = lambda tick: f"\u2264 {tick:g}" if tick == LEAST else f"{tick:g}"
    for tick in ticks_x:
        parts.append(f'<path d="M{x(tick):.1f} {TOP}V{TOP + SIDE}" stroke="{PALE}"/>')
        parts.append(words(x(tick), TOP + SIDE + 16, label(tick)))
    for tick in ticks_y:
        parts.append(f'<path d="M{LEFT} {y(tick):.1f}H{LEFT + SIDE}" stroke="{PALE}"/>')
        parts.append(words(LEFT - 6, y(tick) + 4, label(tick), "end"))
    parts.append(f'<rect x="{LEFT}" y="{TOP}" width="{SIDE}" height="{SIDE}" fill="none" stroke="#888888"/>')
    least = min(most_x, most_y)
    parts.append(f'<path d="M{x(LEAST):.1f} {y(LEAST):.1f}L{x(least):.1f} {y(least):.1f}" stroke="#888888" stroke-dasharray="4 3"/>')
    if any(p[2] is None for p in points):
        parts.append(words(x(None), TOP + SIDE + 16, "stopped"))
    if any(p[3] is None for p in points):
        parts.append(words(LEFT - 6, y(None) + 4, "stopped", "end"))
    shown = lambda s: "stopped" if s is None else f"{s:g} s"
    for name, answer, a, b in points:
        answer = None if a is None or b is None else answer
        parts.append(dot(x(a), y(b), answer, f"{name}: {across} {shown(a)}, {up} {shown(b)}"))
    parts.append(words(LEFT + SIDE / 2, TOP + SIDE + 38, f"{across}, seconds; times up to {LEAST:g} s are drawn at {LEAST:g}"))
    parts.append(words(0, 0, f"{up}, seconds", more=f' transform="translate(14 {TOP + SIDE / 2:.0f}) rotate(-90)"'))
    head = f'<svg xmlns="http://www.w3.org/2000/svg" width="{width}" height="{height}" font-family="sans-serif" font-size="12">'
    return "\n".join([head, *parts, "</svg>\n"])


def main():
    if len(sys.argv) < 3:
        sys.exit("usage: pictures.py ROWS OUT [LIMIT]")
    with open(sys.argv[1], encoding="utf-8") as file:
        rows = [Row(line) for line in file if line.strip()]
    limit = sys.argv[3] if len(sys.argv) > 3 else "60"
    averages(rows)
    print()
    table(rows)
    pictures = {
        "run": ("certify run and MiniSat", "MiniSat", "run", [(r.name, r.answer, r.minisat, r.run) for r in rows]),
        "confirm": ("certify confirm and certify run", "run", "confirm", [(r.name, r.answer, r.run, r.confirm) for r in rows if r.run is not None]),
    }
    os.makedirs(sys.argv[2], exist_ok=True)
    for name, (title, across, up, points) in pictures.items():
        with open(os.path.join(sys.argv[2], name + ".svg"), "w", encoding="utf-8") as file:
            file.write(picture(title, across, up, points, limit))


if __name__ == "__main__":
    main()
