"""A picture of boxes, lines and words, as SVG."""

from html import escape

# What a letter is wide, of the size of its line of text; the font has letters of one width.
LETTER = 0.602
INK, GREY = "#1d2429", "#3d474e"
FONT = "DejaVu Sans Mono, Menlo, Consolas, monospace"


def width_of(text: str, size: float) -> float:
    return len(text) * size * LETTER


class Picture:
    def __init__(self, width: float, height: float, title: str) -> None:
        self.width, self.height, self.title = width, height, title
        self.parts: list[str] = []

    def box(self, x: float, y: float, width: float, height: float, fill: str = "#ffffff", stroke: str = "#5b6770", dashed: bool = False, radius: float = 5) -> None:
        dash = ' stroke-dasharray="5 3"' if dashed else ""
        place = f'x="{x:.1f}" y="{y:.1f}" width="{width:.1f}" height="{height:.1f}" rx="{radius}"'
        self.parts.append(f'<rect {place} fill="{fill}" stroke="{stroke}"{dash}/>')

    def line(self, x: float, y: float, to_x: float, to_y: float, stroke: str = "#8a949c", width: float = 1.2) -> None:
        place = f'x1="{x:.1f}" y1="{y:.1f}" x2="{to_x:.1f}" y2="{to_y:.1f}"'
        self.parts.append(f'<line {place} stroke="{stroke}" stroke-width="{width}"/>')

    def curve(self, x: float, y: float, to_x: float, to_y: float, stroke: str = "#8a949c", width: float = 1.2) -> None:
        half = (y + to_y) / 2
        place = f"M{x:.1f} {y:.1f} C{x:.1f} {half:.1f} {to_x:.1f} {half:.1f} {to_x:.1f} {to_y:.1f}"
        self.parts.append(f'<path d="{place}" fill="none" stroke="{stroke}" stroke-width="{width}"/>')

    def text(self, x: float, y: float, words: str, size: float = 12, fill: str = INK, anchor: str = "middle", bold: bool = False, upright: bool = False) -> None:
        weight = ' font-weight="bold"' if bold else ""
        turn = f' transform="rotate(-90 {x:.1f} {y:.1f})"' if upright else ""
        how = f'font-size="{size}" fill="{fill}" text-anchor="{anchor}"{weight}{turn}'
        self.parts.append(f'<text x="{x:.1f}" y="{y:.1f}" {how}>{escape(words)}</text>')

    def heads(self, *lines: str) -> None:
        """The title, and lines of what the picture shows below it."""
        self.text(12, 22, self.title, 14, anchor="start", bold=True)
        for at, line in enumerate(lines):
            self.text(12, 41 + 17 * at, line, 12, GREY, "start")
            self.width = max(self.width, 24 + width_of(line, 12))

    def put(self, other: "Picture", x: float, y: float) -> None:
        """Puts another picture at this place."""
        self.parts += [f'<g transform="translate({x:.1f} {y:.1f})">', *other.parts, "</g>"]

    def svg(self) -> str:
        size = f'viewBox="0 0 {self.width:.0f} {self.height:.0f}" width="{self.width:.0f}" height="{self.height:.0f}"'
        head = f'<svg xmlns="http://www.w3.org/2000/svg" {size} font-family="{FONT}" role="img">'
        ground = f'<rect width="{self.width:.0f}" height="{self.height:.0f}" fill="#ffffff"/>'
        return "\n".join([head, f"<title>{escape(self.title)}</title>", ground, *self.parts, "</svg>", ""])
