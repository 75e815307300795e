"""Pictures as SVG that are read in dark and in light."""
from typing import List, NamedTuple, Sequence, Tuple
from xml.sax.saxutils import escape, quoteattr

SANS = "system-ui,-apple-system,'Segoe UI',Roboto,'DejaVu Sans',Helvetica,Arial,sans-serif"
MONO = "ui-monospace,SFMono-Regular,Menlo,Consolas,'DejaVu Sans Mono','Liberation Mono',monospace"


class Shade(NamedTuple):
    """A colour on light ground, and on dark."""

    light: str
    dark: str


# what is drawn, and on what: each ink can be read on paper and on each fill
SHADES = {
    "paper": Shade("#ffffff", "#0d1117"),
    "ink": Shade("#1f2328", "#e6edf3"),
    "soft": Shade("#59636e", "#9198a1"),
    "rule": Shade("#c8d1da", "#3d444d"),
    "panel": Shade("#f6f8fa", "#151b23"),
    "blue": Shade("#0550ae", "#79c0ff"),
    "green": Shade("#116329", "#7ee787"),
    "red": Shade("#b3202c", "#ff8e86"),
    "amber": Shade("#7d4e00", "#e3b341"),
    "violet": Shade("#6639ba", "#d2a8ff"),
    "on-blue": Shade("#ddf4ff", "#0c2d4e"),
    "on-green": Shade("#dafbe1", "#0f3a1c"),
    "on-red": Shade("#ffe5e2", "#4c1614"),
    "on-amber": Shade("#fff5c2", "#3b2a06"),
    "on-violet": Shade("#f3e8ff", "#2f1d4f"),
}
Point = Tuple[float, float]


def styles() -> str:
    """A class for each shade, to fill (f-) and to draw (s-) with."""
    light, dark = (
        "".join(f".f-{name}{{fill:{it[scheme]}}}.s-{name}{{stroke:{it[scheme]};fill:none}}" for name, it in SHADES.items())
        for scheme in (0, 1)
    )
    fonts = f"text{{font-family:{SANS}}}.mono{{font-family:{MONO}}}"
    return f"{fonts}{light}@media (prefers-color-scheme:dark){{{dark}}}"


def emphasised(words: str, strong: str) -> str:
    """The words with one of them bold."""
    return words.replace(f" {strong} ", f' <tspan font-weight="700">{strong}</tspan> ', 1) if strong else words


def short(number: float) -> str:
    return f"{number:.1f}".rstrip("0").rstrip(".")


class Drawing:
    """A picture that grows. Lengths are pixels, from the upper left corner."""

    def __init__(self, title: str, told: str) -> None:
        self.title = title
        self.told = told
        self.parts: List[str] = []

    def text(self, x: float, y: float, words: str, ink: str = "ink", size: float = 13, **more: str) -> None:
        """Words whose line stands at y. anchor: start, middle or end; mono, bold, italic; strong: a word that is bold."""
        anchor = {"start": ""}.get(more.get("anchor", "start"), f' text-anchor="{more.get("anchor")}"')
        kind = f"f-{ink} mono" if more.get("mono") else f"f-{ink}"
        weight = ' font-weight="600"' if more.get("bold") else ""
        slant = ' font-style="italic"' if more.get("italic") else ""
        kept = ' xml:space="preserve"' if "  " in words else ""
        self.parts.append(
            f'<text x="{short(x)}" y="{short(y)}" class="{kind}" font-size="{short(size)}"{anchor}{weight}{slant}{kept}>'
            f"{emphasised(escape(words), more.get('strong', ''))}</text>"
        )

    def phrase(self, x: float, y: float, words: Sequence[Tuple[str, str]], size: float = 13, anchor: str = "start") -> None:
        """Words one after the other, each with its ink."""
        anchored = "" if anchor == "start" else f' text-anchor="{anchor}"'
        spans = "".join(f'<tspan class="f-{ink}">{escape(it)}</tspan>' for it, ink in words)
        self.parts.append(
            f'<text x="{short(x)}" y="{short(y)}" font-size="{short(size)}"{anchored} xml:space="preserve">{spans}</text>'
        )

    def box(self, x: float, y: float, width: float, height: float, fill: str = "", line: str = "", **more: float) -> None:
        """A box with round corners."""
        size = f'width="{short(width)}" height="{short(height)}" rx="{short(more.get("round", 6))}"'
        place = f'x="{short(x)}" y="{short(y)}" {size}'
        if fill:
            self.parts.append(f'<rect {place} class="f-{fill}"/>')
        if line:
            dashes = ' stroke-dasharray="4 3"' if more.get("dashed") else ""
            self.parts.append(f'<rect {place} class="s-{line}" stroke-width="{short(more.get("thick", 1.5))}"{dashes}/>')

    def path(self, way: str, ink: str = "ink", thick: float = 1.5, dashes: str = "") -> None:
        dashed = f' stroke-dasharray="{dashes}"' if dashes else ""
        self.parts.append(f'<path d="{way}" class="s-{ink}" stroke-width="{short(thick)}"{dashed}/>')

    def line(self, points: Sequence[Point], ink: str = "ink", thick: float = 1.5, dashes: str = "") -> None:
        self.path("M" + "L".join(f"{short(x)} {short(y)}" for x, y in points), ink, thick, dashes)

    def head(self, x: float, y: float, dx: float, dy: float, ink: str = "ink", size: float = 8) -> None:
        """An arrow's head whose point is at (x, y), in the direction of (dx, dy), which is one long."""
        back, side = (x - size * dx, y - size * dy), (-dy * size * 0.45, dx * size * 0.45)
        corners = [(x, y), (back[0] + side[0], back[1] + side[1]), (back[0] - side[0], back[1] - side[1])]
        way = "L".join(f"{short(a)} {short(b)}" for a, b in corners)
        self.parts.append(f'<path d="M{way}Z" class="f-{ink}"/>')

    def arrow(self, points: Sequence[Point], ink: str = "ink", thick: float = 1.5, dashes: str = "") -> None:
        """A way of straight pieces that ends in an arrow's head."""
        (x0, y0), (x1, y1) = points[-2:]
        far = ((x1 - x0) ** 2 + (y1 - y0) ** 2) ** 0.5
        dx, dy = (x1 - x0) / far, (y1 - y0) / far
        self.line([*points[:-1], (x1 - 6 * dx, y1 - 6 * dy)], ink, thick, dashes)
        self.head(x1, y1, dx, dy, ink)

    def cross(self, x: float, y: float, ink: str = "red", size: float = 5) -> None:
        self.path(f"M{short(x - size)} {short(y - size)}l{2 * size} {2 * size}m0 {-2 * size}l{-2 * size} {2 * size}", ink, 2)

    def written(self, width: float, height: float) -> str:
        """The picture as text."""
        size = f'width="{short(width)}" height="{short(height)}" viewBox="0 0 {short(width)} {short(height)}"'
        lines = [
            f'<svg xmlns="http://www.w3.org/2000/svg" {size} role="img" aria-label={quoteattr(self.title)}>',
            f"<title>{escape(self.title)}</title>",
            f"<desc>{escape(self.told)}</desc>",
            f"<style>{styles()}</style>",
            f'<rect width="{short(width)}" height="{short(height)}" rx="10" class="f-paper"/>',
            *self.parts,
            "</svg>",
        ]
        return "\n".join(lines) + "\n"
