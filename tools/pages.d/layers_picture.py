"""docs/layers.svg: the crates in their layers, the highest on top."""
import re
from html import escape

from tree_of import Layer, Tree

WIDTH = 1000
LEFT = 470
ROW = 34
GAP = 8
LETTER = 8.0
LETTERS = 55
STYLE = """text { font-family: ui-sans-serif, "DejaVu Sans", Helvetica, Arial, sans-serif; font-size: 14px; fill: #1f2328 }
.crate { font-family: ui-monospace, "DejaVu Sans Mono", Menlo, monospace; font-size: 13px }
.sheet { fill: #ffffff; stroke: #8c959f } .even { fill: #f0f3f6 } .box { fill: #ddf0ff; stroke: #0969da } .tests { fill: #e6f5e6; stroke: #1a7f37 }
.arrow { stroke: #57606a; stroke-width: 2; fill: none } .head { fill: #57606a } .small { fill: #57606a }"""


def rows_of(layer: Layer) -> list[list[str]]:
    """The crates of a layer, in rows that are no wider than the picture."""
    rows: list[list[str]] = [[]]
    for crate in layer.crates:
        if rows[-1] and LEFT + sum(width_of(it) + GAP for it in [*rows[-1], crate]) > WIDTH - 20:
            rows.append([])
        rows[-1].append(crate)
    return rows


def width_of(crate: str) -> float:
    """How wide a crate's box is."""
    return LETTER * len(crate) + 16


def box(crate: str, x: float, y: float) -> str:
    """A crate."""
    sort = "tests" if crate.startswith("tests_") else "box"
    return (
        f'<rect class="{sort}" x="{x:.0f}" y="{y + 5:.0f}" width="{width_of(crate):.0f}" height="{ROW - 10}" rx="5"/>'
        f'<text class="crate" x="{x + width_of(crate) / 2:.0f}" y="{y + 22:.0f}" text-anchor="middle">{escape(crate)}</text>'
    )


def title_of(layer: Layer) -> str:
    """What a layer is for, up to a colon or a comma where the whole makes the line too long."""
    title = layer.title.rstrip(".")
    return title if len(title) <= LETTERS else re.split("[:,]", title)[0]


def layer_at(layer: Layer, number: int, y: float) -> str:
    """A layer: a band, what it is for, and its crates."""
    rows = rows_of(layer)
    band = f'<rect class="even" x="45" y="{y:.0f}" width="{WIDTH - 55}" height="{ROW * len(rows)}"/>' if number % 2 == 0 else ""
    text = f'<text x="55" y="{y + 22:.0f}">{escape(title_of(layer))}</text>'
    boxes = []
    for at, row in enumerate(rows):
        x: float = LEFT
        for crate in row:
            boxes.append(box(crate, x, y + at * ROW))
            x += width_of(crate) + GAP
    return "\n".join(filter(None, [band, text, *boxes]))


def arrow(top: float, bottom: float) -> str:
    """That what stands above is made of what stands below."""
    return (
        f'<path class="arrow" d="M 24 {top:.0f} V {bottom - 12:.0f}"/><path class="head" d="M 17 {bottom - 14:.0f} h 14 l -7 14 z"/>'
        f'<text class="small" transform="translate(38 {(top + bottom) / 2:.0f}) rotate(-90)" text-anchor="middle">a crate calls only what stands below it, or to its left</text>'
    )


def picture(tree: Tree) -> str:
    """The whole picture."""
    y, parts = 12.0, []
    for number, layer in enumerate(reversed(tree.layers)):
        parts.append(layer_at(layer, number, y))
        y += ROW * len(rows_of(layer))
    height = y + 12
    head = f'<svg xmlns="http://www.w3.org/2000/svg" viewBox="0 0 {WIDTH} {height:.0f}" width="{WIDTH}" height="{height:.0f}" role="img">'
    sheet = f'<title>The crates in their layers</title>\n<style>{STYLE}</style>\n<rect class="sheet" x="1" y="1" width="{WIDTH - 2}" height="{height - 2:.0f}" rx="8"/>'
    return "\n".join([head, sheet, *parts, arrow(16, y - 4), "</svg>"]) + "\n"


def pages(tree: Tree) -> list[tuple[str, str]]:
    """The picture, by its name from the top."""
    return [("docs/layers.svg", picture(tree))]
