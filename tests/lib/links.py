"""The links of the repository's pages that lead nowhere, and the rows of their tables that have
other columns than the heading."""
from __future__ import annotations

import pathlib
import re

TOP = pathlib.Path(__file__).resolve().parent.parent.parent
PAGES = sorted(page for at in (".", "docs", "tests") for page in (TOP / at).glob("*.md"))


def prose(page: pathlib.Path) -> list[str]:
    """The lines of a page; those of code are empty."""
    lines = []
    code = False
    for line in page.read_text(encoding="utf-8").splitlines():
        fence = line.startswith("```")
        lines.append("" if code or fence else line)
        code ^= fence
    return lines


def anchors(page: pathlib.Path) -> set[str]:
    """What links to its headings are called, as GitHub and Forgejo do."""
    found = set()
    for line in prose(page):
        heading = re.match(r"#+ (.*)", line)
        if heading:
            text = re.sub(r"\[([^\]]*)\]\([^)]*\)", r"\1", heading[1].lower())
            found.add(re.sub(r"[^\w\- ]", "", text).replace(" ", "-"))
    return found


def leads_somewhere(page: pathlib.Path, link: str) -> bool:
    name, _, anchor = link.partition("#")
    target = page.parent / name if name else page
    return target.exists() and (not anchor or anchor in anchors(target))


def dead_links() -> list[str]:
    """Links to files and headings that aren't there; other sites aren't asked."""
    return [
        f"{page.relative_to(TOP)}:{number}: {link} leads nowhere"
        for page in PAGES
        for number, line in enumerate(prose(page), 1)
        for link in re.findall(r"\]\(([^)\s]+)\)", line)
        if "://" not in link and not leads_somewhere(page, link)
    ]


def uneven_rows() -> list[str]:
    """Rows with more or fewer columns than the first row of their table."""
    faults = []
    for page in PAGES:
        wanted = 0
        for number, line in enumerate(prose(page), 1):
            bars = len(re.findall(r"(?<!\\)\|", line)) if line.startswith("|") else 0
            if wanted and bars and bars != wanted:
                columns = f"{bars - 1} columns, not {wanted - 1}"
                faults.append(f"{page.relative_to(TOP)}:{number}: {columns}")
            wanted = bars and (wanted or bars)
    return faults
