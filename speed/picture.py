#!/usr/bin/env python3
"""Draws docs/striped.svg of speed/striped.tsv, which speed/striped.sh writes: transactions a second by threads, with 1,000 and with
100,000 keys that all threads share."""
import csv
from pathlib import Path

ROOT = Path(__file__).resolve().parents[1]
NAMES = {  # What the table calls a line, its title, and its colour and dashes.
    "nothing": ("boostmap, from C", "#0b6e4f", ""),
    "mutexes": ("plain Rust, a mutex a stripe", "#c8553d", ""),
    "one": ("plain Rust, one mutex", "#c8553d", "5 4"),
    "tbb": ("oneTBB, boosted", "#5b5f97", ""),
    "rocksdb": ("RocksDB", "#8a6d3b", ""),
}
WIDTH, HEIGHT, LEFT, TOP = 300, 220, 50, 40
THREADS = [1, 2, 4]


def line(row, left, top_value):
    points = [(left + WIDTH * place / (len(THREADS) - 1), TOP + HEIGHT * (1 - value / top_value)) for place, value in row]
    return points, " ".join(f"{x:.0f},{y:.0f}" for x, y in points)


def chart(rows, keys, left, top_value):
    """The lines of one number of keys, with their axes."""
    out = [f'<text x="{left + WIDTH / 2:.0f}" y="{TOP - 16}" text-anchor="middle">{int(keys):,} keys</text>']
    for value in range(0, int(top_value) + 1, 2):
        y = TOP + HEIGHT * (1 - value / top_value)
        out.append(f'<path d="M{left} {y:.0f}h{WIDTH}" stroke="#ddd"/><text x="{left - 8}" y="{y + 4:.0f}" text-anchor="end">{value}</text>')
    for place, threads in enumerate(THREADS):
        x = left + WIDTH * place / (len(THREADS) - 1)
        out.append(f'<text x="{x:.0f}" y="{TOP + HEIGHT + 18}" text-anchor="middle">{threads}</text>')
    for name, (_, colour, dashes) in NAMES.items():
        row = [(THREADS.index(int(r["threads"])), float(r["millions"])) for r in rows
               if r["name"] == name and r["keys"] == keys and r["who"] == "shared"]
        if row:
            points, path = line(sorted(row), left, top_value)
            out.append(f'<polyline points="{path}" fill="none" stroke="{colour}" stroke-width="2" stroke-dasharray="{dashes}"/>')
            out += [f'<circle cx="{x:.0f}" cy="{y:.0f}" r="3" fill="{colour}"/>' for x, y in points]
    return out


def main():
    with open(ROOT / "speed/striped.tsv", encoding="utf-8") as file:
        rows = list(csv.DictReader(file, delimiter="\t"))
    shown = [r for r in rows if r["who"] == "shared" and r["keys"] in ("1000", "100000")]
    top_value = 2 * (int(max(float(r["millions"]) for r in shown)) // 2 + 1)
    wide = LEFT + 2 * WIDTH + 90
    out = [f'<svg xmlns="http://www.w3.org/2000/svg" viewBox="0 0 {wide} {TOP + HEIGHT + 120}" font-family="sans-serif" font-size="13">',
           '<rect width="100%" height="100%" fill="white"/>']
    for place, keys in enumerate(("1000", "100000")):
        out += chart(rows, keys, LEFT + place * (WIDTH + 60), top_value)
    out.append(f'<text x="{wide / 2:.0f}" y="{TOP + HEIGHT + 42}" text-anchor="middle">threads; millions of transactions a second</text>')
    there = {r["name"] for r in rows}
    for place, (name, (title, colour, dashes)) in enumerate((n, t) for n, t in NAMES.items() if n in there):
        x, y = LEFT + (place % 2) * (WIDTH + 60), TOP + HEIGHT + 72 + place // 2 * 22
        out.append(f'<path d="M{x} {y - 4}h30" stroke="{colour}" stroke-width="2" stroke-dasharray="{dashes}"/><text x="{x + 38}" y="{y}">{title}</text>')
    (ROOT / "docs/striped.svg").write_text("\n".join([*out, "</svg>"]) + "\n", encoding="utf-8")


if __name__ == "__main__":
    main()
