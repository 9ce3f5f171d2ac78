"""How the pictures of the documents look: two themes, and an SVG as text, so that the same data gives the same bytes on each machine.

The colors of marks have a contrast of 3 at least with their ground and are told apart by usual, protan, deutan and tritan eyes; text is
in none of them, and no meaning is in a color alone.
"""
import os
from html import escape

TOP = os.path.dirname(os.path.dirname(os.path.abspath(__file__)))
PICTURES = f"{TOP}/docs/pictures"
THEMES = {
    "light": {"ground": "#ffffff", "text": "#1b1f24", "soft": "#59616b", "line": "#cfd5dc", "tint": "#f3f5f7",
              "blue": "#0754a3", "orange": "#c77700", "red": "#e9630f"},
    "dark": {"ground": "#0d1117", "text": "#e8ecf0", "soft": "#a3acb6", "line": "#3a424c", "tint": "#1e242b",
             "blue": "#307dd2", "orange": "#f0ad15", "red": "#c4440b"},
}
FONT = 'font-family="DejaVu Sans, Verdana, sans-serif"'


def number(value):
    """A number as it stands in an attribute: to a hundredth, with no zeros behind it."""
    return f"{value:.2f}".rstrip("0").rstrip(".")


def tag(name, content="", **given):
    """An element; `_` in the name of an attribute is `-`, and an attribute that is None is left out."""
    words = "".join(
        f' {key.rstrip("_").replace("_", "-")}="{escape(number(it) if isinstance(it, (int, float)) else it)}"'
        for key, it in given.items() if it is not None)
    return f"<{name}{words}>{content}</{name}>" if content else f"<{name}{words}/>"


def text(at, words, size=15, anchor="middle", ink="text", weight=None, **given):
    x, y = at
    return tag("text", escape(words), x=x, y=y, font_size=size, text_anchor=anchor, fill=ink, font_weight=weight, **given)


def title(words):
    return f"<title>{escape(words)}</title>"


def line(start, end, ink="line", width=1, dash=None):
    return tag("line", x1=start[0], y1=start[1], x2=end[0], y2=end[1], stroke=ink, stroke_width=width, stroke_dasharray=dash)


def picture(size, parts, name, described, theme):
    """The SVG in a theme. Inks are names of its colors until here."""
    wide, high = size
    inner = "\n".join(parts)
    for key, color in THEMES[theme].items():
        for attribute in ("fill", "stroke"):
            inner = inner.replace(f'{attribute}="{key}"', f'{attribute}="{color}"')
    ground = THEMES[theme]["ground"]
    return (
        f'<svg xmlns="http://www.w3.org/2000/svg" viewBox="0 0 {wide} {high}" width="{wide}" height="{high}" {FONT} role="img" '
        f'aria-labelledby="title desc">\n<title id="title">{escape(name)}</title>\n<desc id="desc">{escape(described)}</desc>\n'
        f'<rect width="{wide}" height="{high}" fill="{ground}"/>\n{inner}\n</svg>\n')


def keep(name, draw):
    """Writes NAME-light.svg and NAME-dark.svg of what `draw` gives: size, parts, name, description."""
    for theme in THEMES:
        with open(f"{name}-{theme}.svg", "w", encoding="utf-8") as file:
            file.write(picture(*draw(theme), theme))
