"""Pieces of SVG, and the colours of the picture."""

from xml.sax.saxutils import escape

INK, FAINT, GRID = "#22303c", "#667784", "#e3e8ec"
COLOURS = {1: "#1668ad", 2: "#e2711d", 0: "#8a6d00"}  # by mark; 0 is waiting
UNTOLD = "#fdf6dc"   # ground where a list that is not whole leaves things open


def tag(name, inside=None, **attributes):
    """One element; `_` in an attribute's name stands for `-`."""
    parts = [name]
    for key, value in attributes.items():
        if isinstance(value, float):
            value = ("%.2f" % value).rstrip("0").rstrip(".")
        parts.append('%s="%s"' % (key.replace("_", "-"),
                                  escape(str(value), {'"': "&quot;"})))
    head = "<" + " ".join(parts)
    return head + "/>" if inside is None else head + ">" + inside + "</" + name + ">"


def text(x, y, words, size=14, fill=INK, **attributes):
    return tag("text", escape(words), x=x, y=y, font_size=size, fill=fill, **attributes)


def line(x1, y1, x2, y2, stroke=INK, width=1.0, **attributes):
    return tag("line", x1=x1, y1=y1, x2=x2, y2=y2, stroke=stroke, stroke_width=width,
               **attributes)


def rectangle(x, y, width, height, **attributes):
    return tag("rect", x=x, y=y, width=width, height=height, **attributes)


def box_style(mark):
    if mark == 0:
        return {"fill": "url(#waiting)", "stroke": COLOURS[0], "stroke_width": 0.8}
    return {"fill": COLOURS[mark], "fill_opacity": 0.8, "stroke": COLOURS[mark],
            "stroke_width": 1.0}


HATCH = tag("defs", tag(
    "pattern",
    rectangle(0, 0, 7, 7, fill="#fbeeb8") + line(0, 0, 0, 7, stroke="#c9a400", width=2.2),
    id="waiting", width=7, height=7, patternUnits="userSpaceOnUse",
    patternTransform="rotate(45)"))
