"""Says what is wrong with the tags of an HTML page, and nothing where they are all closed in order.

    tests/tools/html_tags.py PAGE
"""
import sys
from html.parser import HTMLParser

OPEN = {"meta", "br", "link", "img", "input", "hr"}


class Tags(HTMLParser):
    """Keeps the open tags."""

    def __init__(self) -> None:
        super().__init__()
        self.open: list[str] = []

    def handle_starttag(self, tag: str, attrs: list) -> None:
        """A tag begins."""
        if tag not in OPEN:
            self.open.append(tag)

    def handle_endtag(self, tag: str) -> None:
        """A tag ends: it has to be the last that began."""
        if not self.open or self.open.pop() != tag:
            print(f"</{tag}> at {self.getpos()} ends no open tag")


def main() -> None:
    """Reads the page."""
    tags = Tags()
    with open(sys.argv[1], encoding="utf-8") as file:
        text = file.read()
    tags.feed(text)
    tags.close()
    if tags.open:
        print(f"still open: {' '.join(tags.open)}")
    for word in ("nan", "inf", "None"):
        if f'"{word}' in text or f">{word}<" in text:
            print(f"a number is {word}")


main()
