"""What the scripts of this folder draw with: an SVG of lines, boxes and words, readable on light and on dark pages.

Each script prints one picture, made of what the tree says; `tests/docs` makes each anew and compares it with the SVG of
its name, and `tests/docs --write` writes them.
"""

import re
from pathlib import Path
from xml.sax.saxutils import escape

TOP = Path(__file__).resolve().parent.parent.parent

# The colours of a light page, and of a dark one.
LIGHT = {"ink": "#1f2328", "dim": "#59636e", "rule": "#8c959f", "area": "#eaeef2", "mark": "#0969da", "warm": "#bc4c00"}
DARK = {"ink": "#e6edf3", "dim": "#9198a1", "rule": "#6e7681", "area": "#2a313c", "mark": "#4493f8", "warm": "#f0883e"}


def style(colours):
    """The classes of a page's shapes and words in these colours."""
    ink, dim, rule, area, mark, warm = (colours[name] for name in LIGHT)
    return (
        f"text{{fill:{ink}}} .dim{{fill:{dim}}} .marked{{fill:{mark}}} .warm{{fill:{warm}}} "
        f".line{{fill:none;stroke:{rule}}} .box{{fill:none;stroke:{ink}}} .area{{fill:{area};stroke:{rule}}} "
        f".shade{{fill:{area};stroke:none}} .mark{{fill:{mark};stroke:{mark}}} .arrow{{fill:none;stroke:{mark}}} "
        f".tip{{fill:{mark};stroke:none}} .ring{{fill:none;stroke:{warm}}} .warm-box{{fill:{warm};stroke:{warm}}}"
    )


def number(value):
    """A coordinate, with one digit behind the point where it needs one."""
    return f"{value:.1f}".removesuffix(".0")


class Picture:
    """A picture of a size, with a title and what it shows in words."""

    def __init__(self, width, height, title, shows):
        self.width, self.height, self.title, self.shows = width, height, title, shows
        self.parts = []

    def put(self, tag, kind, text=None, **values):
        """One element; names with an underscore stand for those with a hyphen."""
        named = {name.replace("_", "-"): it if isinstance(it, str) else number(it) for name, it in values.items()}
        attributes = "".join(f' {name}="{escape(it)}"' for name, it in named.items())
        kind = f' class="{kind}"' if kind else ""
        self.parts.append(f"<{tag}{kind}{attributes}/>" if text is None else f"<{tag}{kind}{attributes}>{escape(text)}</{tag}>")

    def text(self, x, y, words, kind="", anchor="start", size=13):
        self.put("text", kind, words, x=x, y=y, text_anchor=anchor, font_size=size)

    def code(self, x, y, words, kind="", anchor="start", size=12):
        self.text(x, y, words, f"code {kind}".strip(), anchor, size)

    def box(self, x, y, width, height, kind="box", **values):
        self.put("rect", kind, x=x, y=y, width=width, height=height, **values)

    def line(self, x, y, to_x, to_y, kind="line", **values):
        self.put("line", kind, x1=x, y1=y, x2=to_x, y2=to_y, **values)

    def path(self, points, kind="line", **values):
        self.put("path", kind, d=points, **values)

    def tip(self, x, y, towards):
        """The tip of an arrow that ends here, from above ('down'), below ('up') or the left ('right')."""
        a, b = {"down": ((-4, -8), (4, -8)), "up": ((-4, 8), (4, 8)), "right": ((-8, -4), (-8, 4))}[towards]
        self.path(f"M{number(x)} {number(y)}l{a[0]} {a[1]}L{number(x + b[0])} {number(y + b[1])}z", "tip")

    def print(self):
        size = f'viewBox="0 0 {self.width} {self.height}" width="{self.width}" height="{self.height}"'
        print(f'<svg xmlns="http://www.w3.org/2000/svg" {size} role="img">')
        print(f"<title>{escape(self.title)}</title>", f"<desc>{escape(self.shows)}</desc>", sep="\n")
        faces = "text{font-family:'DejaVu Sans',Verdana,sans-serif} .code{font-family:'DejaVu Sans Mono',Menlo,monospace}"
        print(f"<style>{faces} {style(LIGHT)}", f"@media (prefers-color-scheme:dark){{{style(DARK)}}}</style>", sep="\n")
        print(*self.parts, "</svg>", sep="\n")


def constant(file, name):
    """A number that the code gives a name."""
    found = re.search(rf"^pub const {name}: \w+ = ([\w]+);", (TOP / file).read_text(), re.M)
    return int(found[1], 0)
