"""Says what a report's page lacks for those who read it by ear, by keys or without colours.

    tests/tools/html_access.py PAGE

Each table has a caption and heads with a scope, each picture a label and its numbers, each anchor
a place, each id one element; each colour of a picture stands out from the sheet by 3 to 1, each
colour of a text by 4.5 to 1, on light and dark screens and on paper.
"""
import re
import sys
from collections import Counter
from html.parser import HTMLParser

PICTURES = ("replayed", "second", "median", "bound", "configured", "good", "bad", "axis")
TEXTS = ("ink", "muted", "bad", "good")


class Parts(HTMLParser):
    """Keeps what is looked at."""

    def __init__(self) -> None:
        super().__init__()
        self.ids: Counter = Counter()
        self.anchors: list[str] = []
        self.labels: list[str] = []
        self.numbers: list[str] = []
        self.counts: Counter = Counter()
        self.inside = ""
        self.told: dict[str, str] = {}

    def handle_starttag(self, tag: str, attrs: list) -> None:
        """A tag begins."""
        values = dict(attrs)
        self.counts[tag] += 1
        self.inside = values.get("id", "") if tag in ("title", "desc") else ""
        if "id" in values:
            self.ids[values["id"]] += 1
        if tag == "a":
            self.anchors.append(values["href"])
        if tag == "th" and values.get("scope") not in ("row", "col"):
            print("a head of a table has no scope")
        if tag == "svg":
            self.labels += values.get("aria-labelledby", "nothing nothing").split()

    def handle_data(self, data: str) -> None:
        """Text between tags."""
        if self.inside:
            self.told[self.inside] = self.told.get(self.inside, "") + data


def light_of(colour: str) -> float:
    """The relative luminance of a colour, by WCAG 2."""
    parts = [int(colour[n : n + 2], 16) / 255 for n in (1, 3, 5)]
    even = [c / 12.92 if c <= 0.04045 else ((c + 0.055) / 1.055) ** 2.4 for c in parts]
    return 0.2126 * even[0] + 0.7152 * even[1] + 0.0722 * even[2]


def contrast(one: str, two: str) -> float:
    """How much two colours stand out from each other."""
    low, high = sorted((light_of(one), light_of(two)))
    return (high + 0.05) / (low + 0.05)


def compare_colours(page: str) -> None:
    """Prints the colours that are too weak."""
    sets = re.findall(r":root \{([^}]*)\}", page)
    if len(sets) != 3:
        print(f"{len(sets)} sets of colours, wanted 3")
    for text in sets:
        colours = dict(re.findall(r"--([a-z]+): (#[0-9a-f]{6})", text))
        for names, least in ((PICTURES, 3.0), (TEXTS, 4.5)):
            for name in names:
                found = contrast(colours[name], colours["sheet"])
                if found < least:
                    print(f"{name} {colours[name]} on {colours['sheet']}: {found:.2f} to 1")


def main() -> None:
    """Reads the page."""
    with open(sys.argv[1], encoding="utf-8") as file:
        page = file.read()
    parts = Parts()
    parts.feed(page)
    for name, count in parts.ids.items():
        if count > 1:
            print(f"{count} elements are called {name}")
    for anchor in parts.anchors:
        if anchor[1:] not in parts.ids:
            print(f"the anchor {anchor} leads nowhere")
    for name in parts.labels:
        if len(parts.told.get(name, "")) < 10:
            print(f"a picture has no {name}")
        if name.endswith("-numbers") and not re.search(r"\d", parts.told.get(name, "")):
            print(f"{name} has no numbers")
    if not parts.counts["svg"] or parts.counts["table"] != parts.counts["caption"]:
        print(f"pictures, tables and captions: {parts.counts}")
    compare_colours(page)


main()
