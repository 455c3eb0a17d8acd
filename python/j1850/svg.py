"""Shapes and texts of an SVG, as text. Marks differ by shape and words, never by colour alone."""
from xml.sax.saxutils import escape, quoteattr

INK, QUIET_INK, GRID = "#111", "#555", "#ddd"
WINNER, LOSER = "#0072b2", "#d55e00"  # apart for every common kind of colour blindness, and in grey
LETTER = 0.62  # how wide a letter is at most, as a part of its size, where room is kept for a text
STYLE = """text{font-family:DejaVu Sans,Verdana,sans-serif;fill:#111}
.tiny{font-size:9px;fill:#555}.name{font-weight:bold;font-size:14px}.said{font-size:12px}.small{font-size:10px;fill:#555}.bit{font-size:11px}
.big{font-size:15px;font-weight:bold}.title{font-size:18px;font-weight:bold}.wave{fill:none;stroke-linejoin:miter}
.clear{paint-order:stroke;stroke:#fff;stroke-width:4px}"""


def attributes(pairs):
    """Attributes of an element; `_` stands for `-` in a name, and a name's last `_` is left out."""
    return "".join(f" {name.rstrip('_').replace('_', '-')}={quoteattr(number(value))}" for name, value in pairs.items())


def number(value):
    """A value as text, a length with one digit after its point at most."""
    return f"{value:.1f}".removesuffix(".0") if isinstance(value, float) else str(value)


def text(x, y, words, **more):
    """A text."""
    return f"<text{attributes({'x': float(x), 'y': float(y), **more})}>{escape(str(words))}</text>\n"


def rect(x, y, width, height, **more):
    """A rectangle."""
    return f"<rect{attributes({'x': float(x), 'y': float(y), 'width': float(width), 'height': float(height), **more})}/>\n"


def line(x1, y1, x2, y2, **more):
    """A straight line."""
    return f"<line{attributes({'x1': float(x1), 'y1': float(y1), 'x2': float(x2), 'y2': float(y2), 'stroke': INK, **more})}/>\n"


def wave(points, **more):
    """A line through points."""
    joined = " ".join(f"{number(float(x))},{number(float(y))}" for x, y in points)
    return f"<polyline{attributes({'class': 'wave', 'points': joined, 'stroke': INK, **more})}/>\n"


def group(inner, **more):
    """Shapes that belong together."""
    return f"<g{attributes(more)}>\n{inner}</g>\n"


def room(words, size):
    """How wide a text is at most."""
    return LETTER * size * len(words)


def picture(width, height, title, inner):
    """A whole SVG, on white."""
    head = f'<svg xmlns="http://www.w3.org/2000/svg" viewBox="0 0 {width:.0f} {height:.0f}" width="{width:.0f}" height="{height:.0f}" role="img">\n'
    return f"{head}<title>{escape(title)}</title>\n<style>{STYLE}</style>\n{rect(0, 0, width, height, fill='#fff')}{inner}</svg>\n"
