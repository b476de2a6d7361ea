"""A drawing of rectangles, lines and texts, as SVG."""

from collections.abc import Sequence
from xml.sax.saxutils import escape

INK, PALE, PAPER = "#1f2933", "#7b8794", "#ffffff"
SANS = "font-family='DejaVu Sans, Verdana, Helvetica, sans-serif'"
MONO = "font-family='DejaVu Sans Mono, Menlo, Consolas, monospace'"
HATCH = ("<defs><pattern id='hatch' width='6' height='6' patternUnits='userSpaceOnUse' patternTransform='rotate(45)'>"
         "<line x1='0' y1='0' x2='0' y2='6' stroke='#1f2933' stroke-opacity='0.28' stroke-width='2.4'/>"
         "</pattern></defs>")


class Drawing:
    """Shapes; the drawing is as large as they need, and a margin."""

    def __init__(self, margin: float = 16) -> None:
        self.margin = margin
        self.shapes: list[str] = []
        self.right: float = 0
        self.bottom: float = 0

    def reach(self, x: float, y: float) -> None:
        self.right, self.bottom = max(self.right, x), max(self.bottom, y)

    def rectangle(self, x: float, y: float, width: float, height: float, fill: str, stroke: str = "none",
                  corner: float = 0, stroke_width: float = 1) -> None:
        self.reach(x + width, y + height)
        self.shapes.append(f"<rect x='{x:g}' y='{y:g}' width='{width:g}' height='{height:g}' rx='{corner}' "
                           f"fill='{fill}' stroke='{stroke}' stroke-width='{stroke_width}'/>")

    def text(self, x: float, y: float, words: str, size: float = 11, anchor: str = "start", colour: str = INK,
             bold: bool = False, mono: bool = False) -> None:
        wide = len(words) * size * (0.61 if mono or bold else 0.53)
        self.reach(x + wide * {"start": 1, "middle": 0.5, "end": 0}[anchor], y + 4)
        weight = " font-weight='bold'" if bold else ""
        self.shapes.append(f"<text x='{x:g}' y='{y:g}' {MONO if mono else SANS} font-size='{size}' "
                           f"text-anchor='{anchor}' fill='{colour}'{weight}>{escape(words)}</text>")

    def line(self, points: Sequence[tuple[float, float]], colour: str = PALE, width: float = 1.5) -> None:
        for x, y in points:
            self.reach(x, y)
        steps = " ".join(f"{x:g},{y:g}" for x, y in points)
        self.shapes.append(f"<polyline points='{steps}' fill='none' stroke='{colour}' stroke-width='{width}'/>")

    def written(self) -> str:
        width, height = self.right + self.margin, self.bottom + self.margin
        return "\n".join([f"<svg xmlns='http://www.w3.org/2000/svg' width='{width:g}' height='{height:g}' "
                          f"viewBox='0 0 {width:g} {height:g}'>", HATCH,
                          f"<rect width='{width:g}' height='{height:g}' fill='{PAPER}'/>", *self.shapes, "</svg>", ""])
