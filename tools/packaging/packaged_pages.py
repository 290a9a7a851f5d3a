"""The pages that the package has as HTML: which they are, their names there, and how the links between them are named."""

import pathlib
import re
import unicodedata

TOP = pathlib.Path(__file__).resolve().parents[2]
INDEX = TOP / "docs" / "README.md"


def pages():
    """The pages that are packaged as HTML."""
    docs = sorted((TOP / "docs").glob("**/*.md"))
    return [TOP / "README.md", *docs, TOP / "desk" / "README.md", TOP / "CHANGELOG.md"]


def flat_name(path):
    """The name of a page or a picture in a folder that has all of them."""
    return str(path.relative_to(TOP)).removeprefix("docs/").replace("/", "-")


def html_name(page):
    """The name of a page's HTML; that of the page which lists all pages is index.html."""
    return "index.html" if page == INDEX else flat_name(page).removesuffix(".md") + ".html"


def heading_id(heading):
    """The name that a heading has in the HTML, as Python's Markdown makes it."""
    plain = unicodedata.normalize("NFKD", heading).encode("ascii", "ignore").decode()
    return re.sub(r"[-\s]+", "-", re.sub(r"[^\w\s-]", "", plain).strip().lower())
