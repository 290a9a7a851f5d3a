"""HTML: the pages that the package brings, which need `markdown_py`: links, contents, and in Chromium what the search finds."""

import json
import pathlib
import re
import shutil

from trials.parts.program import Case, check, needs, ran_words
import html_pages
import packaged_pages

# Words that somebody looks for, and a page that has to be among what is found.
LOOKED_FOR = {
    "retention": "MANUAL.html#monday-the-vault-its-departments-callers-and-buckets",
    "legal hold": "MANUAL.html#wednesday-a-legal-hold-for-a-court-case",
    "wiped": "MANUAL.html#know-this-first", "quotaexceeded": "MANUAL.html#know-this-first", "nginx": "ENGINEER.html#nginx",
    "--dry-run": "ENGINEER.html#every-night", "rclone": "S3.html#what-to-set-in-each-client",
    "clockback": "ENGINEER.html#to-another-machine", "erasure": "PRIVACY.html#somebody-asks-for-erasure",
    "schlüssel": "INVENTORY.html#the-columns",
}  # fmt: skip
PROBE = """<!DOCTYPE html><meta charset="utf-8"><script src="search.js"></script><script>
document.write(JSON.stringify(%s.map(it => found(it).map(number => SECTIONS[number].slice(0, 2).join("#")))));
</script>"""


def check_pages(folder: pathlib.Path) -> None:
    """Each link leads to a page or a place that is there, each picture that is shown is there and no other, each table
    is one; each page fits a narrow screen, has the box for the search and a way to the page of all pages, which names it;
    and a long page names each of its headings first."""
    pages = {it.name: it.read_text(encoding="utf-8") for it in folder.glob("*.html")}
    check(len(pages) == len(packaged_pages.pages()), f"there are {len(pages)} pages")
    shown = {it for text in pages.values() for it in re.findall(r'<img [^>]*src="([^"]*)"', text)}
    there = {it.name for it in folder.iterdir()} - pages.keys() - {"search.js"}
    check("images-vault-page.png" in shown and shown == there, f"the pages show {shown}, and there are {there}")
    unlisted = pages.keys() - {it.partition("#")[0] for it in re.findall(r'href="([^"]*)"', pages["index.html"])}
    check(unlisted == {"index.html"}, f"index.html has no link to {unlisted}")
    for name, text in pages.items():
        for target, words in re.findall(r'<a href="([^"]*)">(.*?)</a>', text, re.S):
            file, _, place = target.partition("#")
            check("://" in target or not file or file in pages, f"{name} has a link to {target}")
            check("://" in target or not place or f'id="{place}"' in pages[file or name], f"{name}: no place {target}")
            check(not words.endswith(".md"), f"{name} names {words}, and not its title")
        check('name="viewport"' in text and '<form action="index.html">' in text, f"{name} has no viewport, or no search")
        check(name == "index.html" or '<nav><a href="index.html">' in text, f"{name} has no way back")
        headings = re.findall(r'<h[1-3] id="([^"]*)"', text)[1:]
        listed = re.findall(r'<li class="h\d"><a href="#([^"]*)">', text)
        check(listed == (headings if len(headings) >= html_pages.LONG else []), f"the contents of {name} are {listed}")
        check(not re.search(r"^\|.*\|$", re.sub(r"<pre>.*?</pre>", "", text, flags=re.S), re.M), f"{name} has a table as text")


@needs("markdown_py")
class HtmlDocs(Case):
    def test_made(self) -> None:
        """The pages are as they should be; each word leads to its page, and the box shows what is found."""
        pages = self.folder / "html"
        html_pages.make_pages(pages)
        check_pages(pages)
        if not shutil.which("chromium"):
            self.skipTest("there is no chromium: the search isn't tried")
        (pages / "probe.html").write_text(PROBE % json.dumps([*LOOKED_FOR, "no-such-word-here"]), encoding="utf-8")
        text = self.in_browser((pages / "probe.html").as_uri())
        *found, nothing = json.loads(text[text.index("[["):].partition("]]")[0] + "]]")
        for (words, page), places in zip(LOOKED_FOR.items(), found, strict=True):
            check(page in places, f"{words!r} leads to {places}")
        self.assertEqual(nothing, [])
        shown = self.in_browser(f"{(pages / 'index.html').as_uri()}?q=erasure")
        check('<a href="PRIVACY.html#somebody-asks-for-erasure">' in shown, "the box shows no link to what was found")

    def in_browser(self, address: str) -> str:
        browser = ["chromium", "--headless", "--no-sandbox", "--disable-gpu", f"--user-data-dir={self.folder}/browser"]
        ran = ran_words(*browser, "--enable-logging=stderr", "--dump-dom", address)
        check("CONSOLE" not in ran.err, f"the browser says {ran.err}")
        return ran.out
