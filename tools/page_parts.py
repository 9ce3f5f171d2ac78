"""What pages share: names as text, numbers, colors of both themes, and the frame of a page in one file.

Names come from strangers. `shown` writes whatever could move the cursor, turn the line around or be no character at all as an
escape of ASCII, and then escapes for HTML. A page has no script, loads nothing, and says so by its policy.
"""
import html
import unicodedata

# For marks, on a light and on a dark ground. Each has a contrast of 3 at least with its ground, and any two are 26 apart in Lab at least, for
# usual eyes and for each kind of color blindness. Text is never in these colors; text upon them is in that of `on`.
COLORS = {"green": ("#0f9c62", "#13cd83"), "red": ("#e9630f", "#c4440b"), "purple": ("#b079a5", "#dbb2d3"),
          "orange": ("#5f3e04", "#f0ad15"), "blue": ("#0754a3", "#307dd2"), "gray": ("#424345", "#6b6f71")}

STYLE = """
:root { color-scheme: light dark; --ground: #fff; --text: #1b1f24; --soft: #59616b; --line: #cfd5dc; --tint: #f3f5f7; LIGHT }
@media (prefers-color-scheme: dark) { :root { --ground: #14181d; --text: #e8ecf0; --soft: #a3acb6; --line: #3a424c; --tint: #1e242b; DARK } }
* { box-sizing: border-box }
body { margin: 2rem auto; padding: 0 1.5rem; max-width: WIDTH; background: var(--ground); color: var(--text);
  font: 17px/1.45 system-ui, "DejaVu Sans", sans-serif }
h1 { font-size: 1.6rem; margin: 0 0 .3rem } h2 { font-size: 1.2rem; margin: 2rem 0 .5rem } p { margin: .3rem 0 .8rem; max-width: 75ch }
table { border-collapse: collapse; font-variant-numeric: tabular-nums } caption { text-align: left; color: var(--soft); padding: 0 0 .4rem }
th, td { padding: .3rem .6rem; border-bottom: 1px solid var(--line); text-align: left; vertical-align: middle } th { font-weight: 600 }
td.n, th.n { text-align: right } code, .name { font-family: ui-monospace, "DejaVu Sans Mono", monospace; font-size: .92em }
.soft { color: var(--soft) } .wide { overflow-x: auto } summary { cursor: pointer } svg { display: block }
:focus-visible { outline: 3px solid var(--text); outline-offset: 2px }
@media print { details > * { display: block } }
"""


def plain(text):
    """The text with each character that isn't plainly visible as `\\xNN`, `\\uNNNN` or `\\UNNNNNNNN`, a backslash doubled."""
    out = []
    for it in text:
        if it == "\\":
            out.append("\\\\")
        elif it == " " or unicodedata.category(it)[0] in "LNPSM":    # letters, numbers, signs, marks
            out.append(it)
        else:
            code = ord(it)
            out.append(f"\\x{code:02x}" if code < 256 else f"\\u{code:04x}" if code < 65536 else f"\\U{code:08x}")
    return "".join(out)


def shown(text, longest=None):
    """A stranger's text for HTML; one that is over so many characters is cut in the middle."""
    text = plain(text)
    if longest and len(text) > longest:
        text = text[: longest * 2 // 3] + "…" + text[len(text) - longest // 3 :]
    return html.escape(text, quote=True)


def name(text, longest=None):
    return f'<bdi class="name">{shown(text, longest)}</bdi>'


def luminance(color):
    parts = (int(color[k : k + 2], 16) / 255 for k in (1, 3, 5))
    return sum(a * (it / 12.92 if it <= 0.04045 else ((it + 0.055) / 1.055) ** 2.4) for a, it in zip((0.2126, 0.7152, 0.0722), parts))


def on(color):
    """The better color for text upon this one, black or white."""
    return "#ffffff" if 1.05 / (luminance(color) + 0.05) > (luminance(color) + 0.05) / 0.05 else "#000000"


def number(n):
    return f"{n:,}"


def share(part, whole):
    """A share in percent, with one digit behind the point below ten, and never rounded to 0 or to 100."""
    if not whole or part in (0, whole):
        return "100 %" if whole and part else "0 %"
    percent = 100 * part / whole
    if percent < 0.1:
        return "under 0.1 %"
    return "over 99.9 %" if percent > 99.9 else f"{percent:.1f} %" if percent < 10 or percent > 99 else f"{percent:.0f} %"


def page(title, body, style="", width="70rem"):
    light, dark = (" ".join(f"--{key}: {pair[i]}; --on-{key}: {on(pair[i])};" for key, pair in COLORS.items()) for i in (0, 1))
    rules = STYLE.replace("LIGHT", light).replace("DARK", dark).replace("WIDTH", width) + style
    policy = "default-src 'none'; style-src 'unsafe-inline'"
    return (f'<!DOCTYPE html>\n<html lang="en">\n<head>\n<meta charset="utf-8">\n<meta name="viewport" content="width=device-width">\n'
            f'<meta http-equiv="Content-Security-Policy" content="{policy}">\n<title>{shown(title)}</title>\n'
            f"<style>{rules}</style>\n</head>\n<body>\n{body}\n</body>\n</html>\n")
