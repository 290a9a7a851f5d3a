"""The pages as HTML: contents on each long page, a way back to the page of all pages, and a search that works from a file.

The search has an index of the words of each section, which is made here: no server and no other script is asked.
"""

import html
import json
import pathlib
import re
import shutil
import subprocess

from packaged_pages import INDEX, TOP, flat_name, html_name, pages

STYLE = (
    "body{font:16px/1.5 Georgia,serif;max-width:50em;margin:2em auto;padding:0 1em}code,pre{font:14px monospace}"
    "pre{overflow-x:auto;border:1px solid #999;padding:.6em}td,th{border-bottom:1px solid #999;padding:.2em .5em;"
    "text-align:left;vertical-align:top}table{border-collapse:collapse;display:block;overflow-x:auto}img{max-width:100%}"
    "nav form,nav input{display:inline;font:inherit}#contents{columns:20em;padding-left:1em;list-style:none}"
    ".h3,#contents:has(.h1) .h2{padding-left:1em}@media print{nav,#contents{display:none}pre{white-space:pre-wrap}}"
)
# From how many headings on a page has contents.
LONG = 5
HEADING = re.compile(r'<h([1-3]) id="([^"]*)">(.*?)</h\1>', re.S)
LINK = re.compile(r'<a href="([^"]*)">(.*?)</a>', re.S)
PICTURE = re.compile(r'(?<=<img )([^>]*?)src="([^"]*)"')
# A word of the index; search.js takes those of a question alike.
WORD = re.compile(r"\w+")
BOX = (
    '<form action="index.html"><input type="search" name="q" aria-label="Words to look for in all pages" '
    'placeholder="Search all pages"></form>'
)
SEARCH = '<ol id="found"></ol><script src="search.js"></script>'


def title_of(page: pathlib.Path) -> str:
    found = re.search(r"^# (.*)$", page.read_text(encoding="utf-8"), re.M)
    assert found, f"{page} has no title"
    return found[1]


def plain(text: str) -> str:
    """A piece of HTML without its tags."""
    return html.unescape(re.sub(r"<[^>]*>", "", text))


class Pages:
    """All pages, made one by one into a folder."""

    def __init__(self, folder: pathlib.Path) -> None:
        self.folder = folder
        self.names = {it.resolve(): html_name(it) for it in pages()}
        # Of each section the page, the place in it, and the titles of both.
        self.sections: list[tuple[str, str, str, str]] = []
        self.words: dict[str, list[int]] = {}

    def link(self, page: pathlib.Path, target: str, text: str) -> str:
        """A link to a page that is packaged, by its title where it has the file's name; of another the text alone."""
        path, _, place = html.unescape(target).partition("#")
        if "://" in path or not path:
            return f'<a href="{target}">{text}</a>'
        other = (page.parent / path).resolve()
        if other not in self.names:
            return text
        shown = html.escape(title_of(other)) if text.endswith(".md") else text
        return f'<a href="{self.names[other]}{"#" + place if place else ""}">{shown}</a>'

    def picture(self, page: pathlib.Path, path: str) -> str:
        """The name of a picture, which is put beside the pages."""
        source = (page.parent / html.unescape(path)).resolve()
        shutil.copyfile(source, self.folder / flat_name(source))
        return flat_name(source)

    def note_words(self, name: str, title: str, body: str) -> None:
        """Notes the words of each section."""
        begins = [*HEADING.finditer(body)]
        ends = [*(it.start() for it in begins[1:]), len(body)]
        for heading, end in zip(begins, ends):
            self.sections.append((name, heading[2], title, plain(heading[3])))
            for word in {it.lower() for it in WORD.findall(plain(body[heading.start():end]))}:
                self.words.setdefault(word, []).append(len(self.sections) - 1)

    def make(self, page: pathlib.Path) -> None:
        words = ["markdown_py", "-x", "tables", "-x", "fenced_code", "-x", "toc", "-x", "sane_lists", page]
        body = subprocess.run(words, check=True, stdout=subprocess.PIPE, text=True, cwd=TOP).stdout
        body = LINK.sub(lambda it: self.link(page, it[1], it[2]), body)
        body = PICTURE.sub(lambda it: f'{it[1]}src="{self.picture(page, it[2])}"', body)
        title, name = title_of(page), html_name(page)
        self.note_words(name, title, body)
        top = "" if page == INDEX else '<a href="index.html">All pages</a> '
        text = (
            '<!DOCTYPE html><html lang="en"><head><meta charset="utf-8">'
            '<meta name="viewport" content="width=device-width, initial-scale=1">'
            f"<title>{html.escape(title)}</title><style>{STYLE}</style></head><body><nav>{top}{BOX}</nav>"
            f"{SEARCH if page == INDEX else ''}{with_contents(body)}</body></html>\n"
        )
        (self.folder / name).write_text(text, encoding="utf-8")

    def make_search(self) -> None:
        data = json.dumps([self.sections, dict(sorted(self.words.items()))], ensure_ascii=False, separators=(",", ":"))
        script = pathlib.Path(__file__).with_name("search.js").read_text(encoding="utf-8")
        (self.folder / "search.js").write_text(f"const [SECTIONS, WORDS] = {data};\n{script}", encoding="utf-8")


def with_contents(body: str) -> str:
    """A page with a list of its headings after the title, where there are many."""
    title, *others = HEADING.finditer(body)
    if len(others) < LONG:
        return body
    items = "".join(f'<li class="h{it[1]}"><a href="#{it[2]}">{re.sub("<[^>]*>", "", it[3])}</a></li>' for it in others)
    return f'{body[:title.end()]}<ul id="contents">{items}</ul>{body[title.end():]}'


def make_pages(folder: pathlib.Path) -> None:
    """Makes all pages, their pictures and the search."""
    folder.mkdir(parents=True, exist_ok=True)
    made = Pages(folder)
    for page in pages():
        made.make(page)
    made.make_search()
    for it in folder.iterdir():
        it.chmod(0o644)
