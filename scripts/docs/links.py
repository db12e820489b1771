"""Says which links of the pages lead nowhere: to a file that isn't there, or to a heading that its page lacks.

Links to other sites aren't looked at.
"""
import re
import sys

from krates_sources import ROOT

LINK = re.compile(r"\[[^\]]*\]\(([^)\s]+)\)")
FENCE = re.compile(r"^```.*?^```", re.M | re.S)
HEADING = re.compile(r"^#+ (.*)$", re.M)


def anchor(heading):
    """The anchor that a page's heading gets where it is shown as HTML."""
    words = re.sub(r"[`*]|\[|\]\([^)]*\)", "", heading).strip().lower()
    return re.sub(r"[^\w\- ]", "", words).replace(" ", "-")


def without_code(page):
    """The text of a page without its blocks of code."""
    return FENCE.sub("", page.read_text(encoding="utf-8"))


def anchors(page):
    """The anchors of a page's headings."""
    return {anchor(heading) for heading in HEADING.findall(without_code(page))}


def dead(page):
    """The links of a page that lead nowhere."""
    for link in LINK.findall(without_code(page)):
        if "://" in link:
            continue
        name, _, part = link.partition("#")
        target = (page.parent / name).resolve() if name else page
        if not target.exists():
            yield link
        elif part and target.suffix == ".md" and part not in anchors(target):
            yield link


def check():
    """Whether every link leads somewhere; prints those that don't."""
    pages = [page for folder in (".", "docs", "examples") for page in sorted((ROOT / folder).glob("*.md"))]
    found = [f"{page.relative_to(ROOT)}: {link}" for page in pages for link in dead(page)]
    for line in found:
        print(line, file=sys.stderr)
    return not found
