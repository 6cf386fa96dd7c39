"""A drawing as SVG that grows with what is put into it: what tools/picture and tools/availability draw with."""
import re
from xml.sax.saxutils import escape, quoteattr

TEXT, PALE, RED, GREEN, BLUE = "#222222", "#8a8a8a", "#b00020", "#2a7d4f", "#1f6fb4"
# How wide a letter is beside the size of its type.
LETTER = 0.62


class Svg:
    """A drawing that grows with what is put into it."""

    def __init__(self):
        self.parts, self.wide, self.high = [], 0, 0

    def put(self, name, body="", **how):
        told = {key.rstrip("_").replace("_", "-"): f"{it:g}" if isinstance(it, float) else str(it) for key, it in how.items()}
        given = " ".join(f"{key}={quoteattr(it)}" for key, it in told.items())
        self.parts.append(f"<{name} {given}>{body}</{name}>" if body else f"<{name} {given}/>")

    def reach(self, x, y):
        self.wide, self.high = max(self.wide, x), max(self.high, y)

    def text(self, x, y, text, size=12, **how):
        shown = re.sub(r"[^ -~]", "?", text)
        self.put("text", escape(shown) or " ", x=float(x), y=float(y), font_size=size, **how)
        if how.get("text_anchor") != "middle":
            self.reach(x + len(shown) * size * LETTER, y + 6)

    def box(self, x, y, wide, high, title, **how):
        self.put("rect", f"<title>{escape(re.sub(r'[^ -~]', '?', title))}</title>", x=float(x), y=float(y), width=float(wide), height=float(high), rx=4, **how)
        self.reach(x + wide, y + high)

    def whole(self, about):
        wide, high = int(self.wide) + 12, int(self.high) + 12
        tip = '<path d="M0 0L8 4L0 8z" fill="#666"/>'
        marker = f'<marker id="tip" viewBox="0 0 8 8" refX="7" refY="4" markerWidth="6" markerHeight="6" orient="auto">{tip}</marker>'
        opened = f'<svg xmlns="http://www.w3.org/2000/svg" width="{wide}" height="{high}" viewBox="0 0 {wide} {high}" role="img"'
        opened += ' font-family="DejaVu Sans Mono, Menlo, Consolas, monospace">'
        first = [opened, f"<title>{escape(about)}</title>", f"<defs>{marker}</defs>", '<rect width="100%" height="100%" fill="#ffffff"/>']
        return "\n".join([*first, *self.parts, "</svg>", ""])


def cut(text, wide, size):
    """The text, cut to so many points."""
    most = max(2, int(wide / (size * LETTER)))
    return text if len(text) <= most else text[: most - 2] + ".."


def legend(svg, y, items):
    """What the marks mean: pairs of how a box is drawn and what it says."""
    x = 12
    for how, text in items:
        svg.put("rect", x=float(x), y=float(y - 10), width=16.0, height=11.0, rx=2, **how)
        svg.text(x + 21, y, text, 11, fill="#555555")
        x += 36 + len(text) * 11 * LETTER
