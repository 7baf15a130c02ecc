"""What is ours in each section: the differences and the decisions of docs/, by the section that they speak of."""
import html
import re

from shared import book_plan
from shared.sources import ROOT

DIFFERENCES, DECISIONS = ROOT / "docs" / "DIFFERENCES.md", ROOT / "docs" / "DECISIONS.md"
ROW = re.compile(r"(?m)^\| (.+?) \| (.+?) \|$")


def notes():
    """The notes by the sign of their section, in HTML."""
    found = {}
    standard = DIFFERENCES.read_text().partition("From GraphQL October 2021")[2]
    for there, here in ROW.findall(standard):
        sign = book_plan.cited(there) if "RFC" not in there else "json-values"
        if sign:
            found.setdefault(sign, []).append(f"<b>Differs.</b> The standard: {shown(there)}. Here: {shown(here)}.")
    heading = None
    for block in re.split(r"(?m)^(?=## |- )", DECISIONS.read_text()):
        if block.startswith("## "):
            heading = block[3:].partition("\n")[0].strip()
            if heading not in book_plan.DECISIONS:
                raise SystemExit(f"book: no section is known for the heading '{heading}' of docs/DECISIONS.md: see checks/shared/book_plan.py")
        elif block.startswith("- ") and book_plan.DECISIONS[heading]:
            found.setdefault(book_plan.DECISIONS[heading], []).append(shown(re.sub(r"\s+", " ", block[2:]).strip()))
    return found


def shown(text):
    text = re.sub(r"\s*\(sections? [\d., and]+\)(?=$|,)", lambda match: match.group(), text)
    return re.sub(r"`([^`]+)`", r"<code>\1</code>", html.escape(text, quote=False))
