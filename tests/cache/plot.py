#!/usr/bin/env python3
"""Draws what tests/cache/table.py measured.

    tests/cache/plot.py FIGURES > docs/rebuilds.svg

FIGURES is the file of `--out`. The picture has a block for each edit, and in it a bar for each tool, as long as the build took."""
import json
import sys
from html import escape
from pathlib import Path

from tools import CCACHE, CCACHE_OURS, CCACHE_THREADS, NVCC, NVCC_THREADS, OURS, OURS_CACHE, OURS_ROOT, SCCACHE

COLORS = {NVCC: "#8c8c8c", NVCC_THREADS: "#bdbdbd", CCACHE: "#4477aa", CCACHE_THREADS: "#88bbdd", SCCACHE: "#aa8844", CCACHE_OURS: "#bb99cc",
          OURS: "#ee9988", OURS_CACHE: "#cc3311", OURS_ROOT: "#882200"}
COLUMNS, BAR, GAP, WIDTH, HEAD = 2, 13, 16, 430, 28
Row = tuple[str, float]


def bar(tool: str, seconds: float, most: float, left: float, top: float) -> list[str]:
    """A bar with its tool and its seconds."""
    width = (WIDTH - 230) * seconds / most
    return [f'<rect x="{left + 155:.0f}" y="{top:.0f}" width="{max(width, 1):.1f}" height="{BAR - 3}" fill="{COLORS[tool]}"/>',
            f'<text x="{left + 150:.0f}" y="{top + 9:.0f}" text-anchor="end">{escape(tool)}</text>',
            f'<text x="{left + 160 + width:.0f}" y="{top + 9:.0f}">{seconds:.2f}</text>']


def block(edit: str, rows: list[Row], most: float, left: float, top: float) -> list[str]:
    """The bars of an edit below its name."""
    lines = [f'<text x="{left}" y="{top + 10}" font-weight="bold">{escape(edit)}</text>']
    for place, (tool, seconds) in enumerate(rows):
        lines += bar(tool, seconds, most, left, top + 16 + place * BAR)
    return lines


def picture(edits: dict[str, list[Row]]) -> str:
    """All blocks, in columns."""
    most = max(seconds for rows in edits.values() for _, seconds in rows)
    height = 16 + max(len(rows) for rows in edits.values()) * BAR + GAP
    lines: list[str] = []
    for place, (edit, rows) in enumerate(edits.items()):
        lines += block(edit, rows, most, 10 + place % COLUMNS * WIDTH, HEAD + place // COLUMNS * height)
    size = f'width="{COLUMNS * WIDTH}" height="{HEAD + -(-len(edits) // COLUMNS) * height}"'
    title = '<text x="10" y="16" font-size="12">Seconds of a build of all sources after an edit</text>'
    return "\n".join([f'<svg xmlns="http://www.w3.org/2000/svg" {size} font-family="sans-serif" font-size="10">',
                      '<rect width="100%" height="100%" fill="white"/>', title, *lines, "</svg>"])


def main() -> int:
    edits: dict[str, list[Row]] = {}
    for part, tool, edit, seconds in json.loads(Path(sys.argv[1]).read_text(encoding="utf-8")):
        if part == "edits":
            edits.setdefault(edit, []).append((tool, seconds))
    order = list(COLORS)
    print(picture({edit: sorted(rows, key=lambda row: order.index(row[0])) for edit, rows in edits.items()}))
    return 0


if __name__ == "__main__":
    sys.exit(main())
