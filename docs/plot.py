"""Draws docs/cost.svg from the table 'How cost grows' of docs/PERFORMANCE.md: python3 docs/plot.py"""

import math
import pathlib

FOLDER = pathlib.Path(__file__).parent
WIDTH, HEIGHT, GAP, EDGE = 300, 200, 70, 60


def table():
    """The rows of every operation with more than one size: size, ours, the Rust."""
    text = (FOLDER / "PERFORMANCE.md").read_text().split("## How cost grows")[1]
    operations = {}
    for line in text.splitlines():
        cells = [cell.strip().replace(",", "") for cell in line.strip("|").split("|")]
        if len(cells) == 5 and cells[1].isdigit():
            name = line.strip("|").split("|")[0].strip()
            operations.setdefault(name, []).append(tuple(int(cell) for cell in cells[1:4]))
    return {name: rows for name, rows in operations.items() if len(rows) > 1}


def panel(name, rows, left, top):
    """One operation: both lines, on logarithmic scales."""
    x_most = max(math.log10(row[0]) for row in rows)
    y_most = max(math.log10(max(row[1:])) for row in rows)

    def point(size, cost):
        x = left + WIDTH * math.log10(size) / x_most
        y = top + HEIGHT * (1 - math.log10(cost) / y_most)
        return f"{x:.1f},{y:.1f}"

    parts = [
        f'<rect x="{left}" y="{top}" width="{WIDTH}" height="{HEIGHT}" fill="none" stroke="#999"/>',
        f'<text x="{left}" y="{top - 8}">{name}</text>',
    ]
    for power in range(int(x_most) + 1):
        x = left + WIDTH * power / x_most
        parts.append(f'<text x="{x:.1f}" y="{top + HEIGHT + 16}" text-anchor="middle">10^{power}</text>')
    for power in range(0, int(y_most) + 1, 2):
        y = top + HEIGHT * (1 - power / y_most)
        parts.append(f'<text x="{left - 6}" y="{y + 4:.1f}" text-anchor="end">10^{power}</text>')
    for column, colour in ((1, "#06c"), (2, "#c40")):
        line = " ".join(point(row[0], row[column]) for row in rows)
        parts.append(f'<polyline points="{line}" fill="none" stroke="{colour}" stroke-width="2"/>')
        for row in rows:
            x, y = point(row[0], row[column]).split(",")
            parts.append(f'<circle cx="{x}" cy="{y}" r="3" fill="{colour}"/>')
    return parts


def main():
    operations = table()
    columns = 2
    lines = math.ceil(len(operations) / columns)
    width = EDGE + columns * (WIDTH + GAP)
    height = 50 + lines * (HEIGHT + GAP)
    parts = [
        f'<svg xmlns="http://www.w3.org/2000/svg" width="{width}" height="{height}" font-family="sans-serif" font-size="12">',
        f'<rect width="{width}" height="{height}" fill="white"/>',
        f'<text x="{EDGE}" y="20" fill="#06c">ours</text><text x="{EDGE + 50}" y="20" fill="#c40">the Rust</text>'
        f'<text x="{EDGE + 120}" y="20">instructions of one call, by size</text>',
    ]
    for place, (name, rows) in enumerate(operations.items()):
        left = EDGE + place % columns * (WIDTH + GAP)
        top = 50 + place // columns * (HEIGHT + GAP)
        parts += panel(name, rows, left, top)
    (FOLDER / "cost.svg").write_text("\n".join(parts + ["</svg>", ""]))


main()
