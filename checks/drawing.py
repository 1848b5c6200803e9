"""What pictures are drawn with, as SVG."""

from html import escape

WIDTH = 960
FONT = "Helvetica, Arial, sans-serif"
INK, LINE, PALE = "#1b1f24", "#57606a", "#eef3f8"


class Picture:
    """An SVG picture, drawn from its top down."""

    def __init__(self, title):
        self.parts, self.title = [], title

    def text(self, x, y, said, size=13, anchor="start", ink=INK, weight="normal"):
        self.parts.append(f'<text x="{x:g}" y="{y:g}" font-size="{size}" text-anchor="{anchor}" fill="{ink}" font-weight="{weight}">{escape(said)}</text>')

    def box(self, x, y, width, height, fill="#ffffff", dashed=False):
        dash = ' stroke-dasharray="4 3"' if dashed else ""
        self.parts.append(f'<rect x="{x:g}" y="{y:g}" width="{width:g}" height="{height:g}" rx="3" fill="{fill}" stroke="{LINE}"{dash}/>')

    def line(self, x, y, to_x, to_y, arrow=False, dashed=False):
        dash = ' stroke-dasharray="4 3"' if dashed else ""
        head = ' marker-end="url(#head)"' if arrow else ""
        self.parts.append(f'<line x1="{x:g}" y1="{y:g}" x2="{to_x:g}" y2="{to_y:g}" stroke="{LINE}"{dash}{head}/>')

    def svg(self, height):
        head = f'<marker id="head" markerWidth="9" markerHeight="8" refX="8" refY="4" orient="auto"><path d="M0,0 L9,4 L0,8 z" fill="{LINE}"/></marker>'
        lines = [
            f'<svg xmlns="http://www.w3.org/2000/svg" width="{WIDTH}" height="{height:g}" viewBox="0 0 {WIDTH} {height:g}" font-family="{FONT}">',
            f"<title>{escape(self.title)}</title>",
            f"<defs>{head}</defs>",
            f'<rect width="{WIDTH}" height="{height:g}" fill="#ffffff"/>',
            *self.parts,
            "</svg>",
        ]
        return "\n".join(lines) + "\n"
