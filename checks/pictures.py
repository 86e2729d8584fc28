"""The pictures of the pages, docs/pictures/, against what the program draws now. A picture is an SVG that Graphviz made
of a drawing: of each node and edge it has a group with its title, and below that its colours and the lines of its text.
So both are compared without Graphviz, but for where things are drawn.
"""
import glob
import html
import os
import re
from collections import Counter

from program import ROOT, Cases, Fault

PICTURES = os.path.join("docs", "pictures")
# A line of a drawing: a node, or an edge, with its attributes.
ITEM = re.compile(r"^ *(\w+(?: -> \w+)?)(?: \[(.*)\])?;$", re.MULTILINE)
ATTRIBUTE = re.compile(r'(\w+)=("(?:[^"\\]|\\.)*"|\w+)')
# The text of a whole drawing, or of its legend.
HEADING = re.compile(r'^ *label=("(?:[^"\\]|\\.)*");$', re.MULTILINE)
GROUP = re.compile(r'<g id="\w+" class="(?:node|edge)">\n<title>(.*?)</title>\n(.*?)</g>', re.DOTALL)
TEXT = re.compile(r"<text [^>]*>(.*?)</text>")
# What is drawn of one thing: its title, its colour if it has one, whether it is bold, and the lines of its text.
Drawn = tuple[str, str, bool, tuple[str, ...]]


def lines_of(label: str) -> tuple[str, ...]:
    """The lines of a label in quotes."""
    lines = re.sub(r'\\(["\\])', r"\1", label[1:-1]).split("\\n")
    return tuple(html.unescape(line) for line in lines if line)


def drawn_in(drawing: str) -> Counter[Drawn]:
    """What a drawing in DOT says is to be seen."""
    seen = Counter(("", "", False, lines_of(label)) for label in HEADING.findall(drawing))
    for title, said in ITEM.findall(drawing):
        attributes = dict(ATTRIBUTE.findall(said))
        if attributes.get("style") != "invis" and not title.startswith("start"):
            colour = attributes.get("fillcolor") or attributes.get("color") or ""
            lines = lines_of(attributes.get("label", '""'))
            bold = attributes.get("style") == "bold" or "penwidth" in attributes
            seen[title.replace(" ", ""), colour, bold, lines] += 1
    return seen


def shown_in(picture: str) -> Counter[Drawn]:
    """What is to be seen in a picture."""
    seen: Counter[Drawn] = Counter()
    for title, held in GROUP.findall(picture):
        title = html.unescape(title)
        if not title.startswith("start"):
            colours = set(re.findall(r'(?:fill|stroke)="(\w+)"', held)) - {"none", "black", "transparent"}
            lines = tuple(html.unescape(line) for line in TEXT.findall(held))
            seen[title, "".join(sorted(colours)), "stroke-width" in held, lines] += 1
    # Headings are outside those groups, the legend's in a group of its own.
    outside = GROUP.sub("", picture)
    legends = re.findall(r'<g id="\w+" class="cluster">.*?</g>', outside, re.DOTALL)
    for part in [*legends, re.sub(r'<g id="\w+" class="cluster">.*?</g>', "", outside, flags=re.DOTALL)]:
        if TEXT.search(part):
            seen["", "", False, tuple(html.unescape(line) for line in TEXT.findall(part))] += 1
    return seen


def difference_of(drawing: str, picture: str) -> Fault:
    wanted, came = drawn_in(drawing), shown_in(picture)
    return None if wanted == came else f"it shows {[*(came - wanted)]} for {[*(wanted - came)]}"


def picture_checks(label: str, folder: str) -> Cases:
    """The drawings that the commands of a page left in a folder are those of the pictures of their names."""
    for path in sorted(glob.glob(os.path.join(folder, "*.dot"))):
        name = os.path.basename(path).removesuffix(".dot")
        shown = os.path.join(ROOT, PICTURES, f"{name}.svg")
        if os.path.exists(shown):
            with open(path) as drawing, open(shown) as picture:
                yield f"{label}: the picture {name}.svg", difference_of(drawing.read(), picture.read())
