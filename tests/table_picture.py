#!/usr/bin/env python3
"""Draws docs/table.svg: the words of a table with two timers in its interval chain, as the library leaves them.

    python3 tests/table_picture.py > docs/table.svg
    python3 tests/table_picture.py --check       the stored picture must be this one"""
import sys
from pathlib import Path

ROOT = Path(__file__).resolve().parent.parent
sys.path.append(str(ROOT / "tools"))
import heathcinder  # noqa: E402

PAGE = ROOT / "docs" / "table.svg"
HEADER = ["slots N", "ticks a second", "clock set", "seconds", "ticks into second", "interval chain", "dated chain", "split",
          "server", "queue"]
SLOT = ["kind", "name", "interval", "wait", "routine", "user data", "next", "previous"]
NAME, WAIT, NEXT, PREVIOUS, FIRST = 1, 3, 6, 7, 5
LEFT, TOP, WIDTH, HEIGHT, GAP = 128, 30, 100, 56, 40
STYLE = """<style>
  .page { fill: #ffffff }
  text { fill: #1f2328; font: 11px sans-serif }
  .small { fill: #59636e }
  .value { font: 600 15px monospace }
  .cell { fill: none; stroke: #8c959f }
  .waits { fill: #ddf4ff }
  .arrow { fill: none; stroke: #0969da; stroke-width: 2; marker-end: url(#head) }
  .head { fill: #0969da }
  @media (prefers-color-scheme: dark) {
    .page { fill: #0d1117 }
    text { fill: #e6edf3 }
    .small { fill: #a3acb6 }
    .waits { fill: #12355b }
    .arrow { stroke: #58a6ff }
    .head { fill: #58a6ff }
  }
</style>
<marker id="head" viewBox="0 0 8 8" refX="7" refY="4" markerWidth="7" markerHeight="7" orient="auto"><path class="head" d="M0 0 8 4 0 8z"/></marker>
<rect class="page" width="100%" height="100%"/>"""


def table():
    """Three slots: a timer for 5 ticks, one for 8, and a free slot."""
    made = heathcinder.Table(slots=3, ticks_per_second=100)
    for label, ticks, routine, data in ("GRD1", 5, 7, 70), ("LAMP", 8, 8, 80):
        made.fire_after(made.create(heathcinder.name(label)), ticks, routine, data)
    return list(made.words)


def text(x, y, words, kind=None, anchor="middle"):
    return '<text x="%d" y="%d" text-anchor="%s"%s>%s</text>' % (x, y, anchor, ' class="%s"' % kind if kind else "", words)


def cells(first, y, labels, words, waits=False):
    for i, (label, word) in enumerate(zip(labels, words)):
        x = LEFT + WIDTH * i
        shown = word.to_bytes(4, "big").decode() if label == "name" and word else word
        yield '<rect class="cell%s" x="%d" y="%d" width="%d" height="%d"/>' % (" waits" if waits else "", x, y, WIDTH, HEIGHT)
        yield text(x + 5, y + 14, first + i, "small", "start")
        yield text(x + WIDTH / 2, y + 31, label)
        yield text(x + WIDTH / 2, y + 49, shown, "value")


def row(slot):
    return TOP + (HEIGHT + GAP) * slot


def arrow(column, source, slot, from_right=False):
    """From this word of a row to the slot as a whole: to its left edge, or to its right one."""
    x, up = LEFT + WIDTH * column + WIDTH / 2, slot < source
    begin = row(source) if up else row(source) + HEIGHT
    edge, turn = (LEFT + WIDTH * len(SLOT) + 1, 16) if from_right else (LEFT - 1, -16)
    return '<path class="arrow" d="M%d %d v%d H%d V%d H%d"/>' % (
        x, begin, -GAP / 2 if up else GAP / 2, edge + turn, row(slot) + HEIGHT / 2, edge)


def draw(words):
    height = row(3) + HEIGHT + 34
    yield ('<svg xmlns="http://www.w3.org/2000/svg" viewBox="0 0 %d %d" role="img" aria-label="A table of three slots in which '
           'two timers wait for ticks">' % (LEFT + WIDTH * len(HEADER) + 12, height))
    yield STYLE
    yield text(12, row(0) + 26, "header", anchor="start")
    yield text(12, row(0) + 42, "10 words", "small", "start")
    yield from cells(0, row(0), HEADER, words[:10])
    for slot in 1, 2, 3:
        first = 10 + 8 * (slot - 1)
        mine = words[first:first + 8]
        yield text(12, row(slot) + 20, "slot %d" % slot, anchor="start")
        yield text(12, row(slot) + 36, "id 0x%08x" % (0x12010000 + slot) if mine[0] else "free", "small", "start")
        yield text(12, row(slot) + 51, "8 words", "small", "start")
        yield from cells(first, row(slot), SLOT, mine, waits=mine[0] == 4)
    one, two = words[FIRST], words[10 + NEXT]
    yield arrow(FIRST, 0, one)
    yield arrow(NEXT, one, two)
    yield arrow(PREVIOUS, two, one, from_right=True)
    yield text(LEFT, height - 12, "The second timer is due %d ticks after the first: in %d." % (
        words[18 + WAIT], words[10 + WAIT] + words[18 + WAIT]), "small", "start")
    yield "</svg>"


def main():
    made = "\n".join(draw(table())) + "\n"
    if sys.argv[1:] == ["--check"]:
        if PAGE.read_text() != made:
            sys.exit("FAILED picture: docs/table.svg is not the library's table: python3 tests/table_picture.py > docs/table.svg")
        print("picture: docs/table.svg is the library's table")
    else:
        print(made, end="")


main()
