"""Draws the table that bench/growth/run prints: microseconds by the number of links or chunks, both axes logarithmic, one panel for each
column. Reads the table from a file, or bench/README.md, and writes bench/growth/growth.svg."""

import math
import os
import sys

FOLDER = os.path.dirname(os.path.abspath(__file__))
TABLE = os.path.join(os.path.dirname(FOLDER), "README.md")
COLOURS = {"libhdf5": "#888888", "libh5i": "#c03020"}
ACROSS, WIDTH, HEIGHT, MARGIN = 4, 220, 170, 40
LEAST, MOST = 0.01, 1000.0


def read_table(path):
    """The columns' names, and of each library its rows: how many there are, and the times."""
    with open(path, encoding="utf-8") as file:
        rows = [[cell.strip() for cell in line.strip().strip("|").split("|")] for line in file if line.startswith("|")]
    head = next(k for k, row in enumerate(rows) if row[0] == "Library")
    times = {library: [] for library in COLOURS}
    for row in rows[head + 2 :]:
        if row[0] not in COLOURS:
            break
        times[row[0]].append((int(row[1]), [float(cell) if cell else None for cell in row[2:]]))
    return rows[head][2:], times


def place(count, time):
    """Where a time stands in its panel."""
    across = (math.log10(count) - 3) / 3
    up = (math.log10(min(max(time, LEAST), MOST)) - math.log10(LEAST)) / (math.log10(MOST) - math.log10(LEAST))
    return MARGIN + across * (WIDTH - MARGIN - 30), HEIGHT - 25 - up * (HEIGHT - 50)


def panel(column, name, times):
    """The lines of one column."""
    parts = [f'<text x="{WIDTH / 2}" y="14" text-anchor="middle" font-weight="bold">{name}</text>']
    for power in range(-2, 4):
        x, y = place(1000, 10.0**power)
        parts.append(f'<line x1="{x}" y1="{y:.1f}" x2="{WIDTH - 30}" y2="{y:.1f}" stroke="#dddddd"/>')
        parts.append(f'<text x="{x - 4}" y="{y + 3:.1f}" text-anchor="end">{10.0**power:g}</text>')
    for power in range(3, 7):
        x, _ = place(10**power, LEAST)
        parts.append(f'<text x="{x:.1f}" y="{HEIGHT - 10}" text-anchor="middle">{10**power:,}</text>')
    for library, colour in COLOURS.items():
        known = [(count, row[column]) for count, row in times[library] if row[column] is not None]
        points = " ".join(f"{x:.1f},{y:.1f}" for x, y in (place(count, time) for count, time in known))
        parts.append(f'<polyline points="{points}" fill="none" stroke="{colour}" stroke-width="2"/>')
    return parts


def main():
    """Writes the picture."""
    names, times = read_table(sys.argv[1] if len(sys.argv) > 1 else TABLE)
    down = (len(names) + ACROSS - 1) // ACROSS
    lines = [
        f'<svg xmlns="http://www.w3.org/2000/svg" width="{ACROSS * WIDTH}" height="{down * HEIGHT + 20}" '
        'font-family="sans-serif" font-size="9">',
        '<rect width="100%" height="100%" fill="white"/>',
    ]
    for column, name in enumerate(names):
        lines.append(f'<g transform="translate({column % ACROSS * WIDTH},{column // ACROSS * HEIGHT})">')
        lines += panel(column, name, times) + ["</g>"]
    key = "microseconds for each; grey libhdf5, red libh5i"
    lines += [f'<text x="{ACROSS * WIDTH / 2}" y="{down * HEIGHT + 10}" text-anchor="middle">{key}</text>', "</svg>"]
    with open(os.path.join(FOLDER, "growth.svg"), "w", encoding="utf-8") as file:
        file.write("\n".join(lines) + "\n")


if __name__ == "__main__":
    main()
