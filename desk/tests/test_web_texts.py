"""The pages' words in both languages, and what a screen reader and a keyboard need of each page."""

from __future__ import annotations

import re
from html.parser import HTMLParser
from pathlib import Path
from typing import Any

from tests.web_office import Browser, WebTest, library

PATHS = (
    "/", "/find", "/find?text=Miller", "/bucket/docs", "/put", "/put?bucket=docs&key=k", "/deliver", "/holds",
    "/removed", "/removed/certificates", "/reports", "/disposal", "/state", "/version/1", "/version/1/delete",
    "/version/1/court", "/nowhere", "/version/99",
)  # fmt: skip
KEYWORDS = {"_": None, "gettext": None, "ngettext": (1, 2), "text": None, "texts": (1, 2)}
FILES = [("**.py", "python"), ("templates/**.html", "jinja2")]
VOID = {"input", "meta", "link", "br", "img"}


class Outline(HTMLParser):
    """What a page is made of: headings, labels, fields, links, and whether each element is closed."""

    def __init__(self, text: str) -> None:
        super().__init__()
        self.open: list[str] = []
        self.headings: list[str] = []
        self.names: list[tuple[str, dict[str, str]]] = []
        self.faults: list[str] = []
        self.feed(text)
        self.faults += [f"{it} isn't closed" for it in self.open]

    def handle_starttag(self, tag: str, attrs: list[tuple[str, str | None]]) -> None:
        self.names.append((tag, {name: value or "" for name, value in attrs}))
        if tag in ("h1", "h2", "h3"):
            self.headings.append(tag)
        if tag not in VOID:
            self.open.append(tag)

    def handle_endtag(self, tag: str) -> None:
        if not self.open or self.open.pop() != tag:
            self.faults.append(f"</{tag}> at {self.getpos()}")

    def all(self, *tags: str) -> list[dict[str, str]]:
        """The attributes of all elements of these names."""
        return [attributes for tag, attributes in self.names if tag in tags]


class Words(WebTest):
    def test_the_catalogue_has_each_text_and_no_other(self) -> None:
        extract, pofile = library("babel.messages.extract"), library("babel.messages.pofile")
        folder = Path(self.app.root_path)
        options = {"templates/**.html": {"trimmed": "true"}}
        found = extract.extract_from_dir(str(folder), FILES, options, keywords=KEYWORDS)
        texts = {it[2] if isinstance(it[2], str) else it[2][0] for it in found}
        with (folder / "locale" / "de.po").open("rb") as file:
            catalogue = pofile.read_po(file, locale="de")
        there = {(it.id if isinstance(it.id, str) else it.id[0]): it for it in catalogue if it.id}
        self.assertEqual(set(there), texts)
        for text, it in there.items():
            words = [it.string] if isinstance(it.string, str) else it.string
            self.assertTrue(all(words), f"{text!r} has no German words")
            self.assertEqual([str(fault) for fault in it.check(catalogue)], [])

    def test_german_has_its_own_dates_and_numbers(self) -> None:
        texts = library("vaultdesk.web.texts").languages()
        for name, moment, number, size in (
            ("en", "1 Jan 2034, 00:00:00 UTC", "1,234,567", "1.2 MB"),
            ("de", "01.01.2034, 00:00:00 UTC", "1.234.567", "1,2 MB"),
        ):
            it = texts[name]
            said = (it.moment("2034-01-01T00:00:00Z"), it.number(1_234_567), it.size(1_234_567))
            self.assertEqual(said, (moment, number, size))
        self.assertEqual(texts["de"].moment("unknown"), "unknown")

    def test_a_language_is_the_browsers_or_the_one_that_was_chosen(self) -> None:
        browser = Browser(self.app)
        for accepted, word in (("de-AT,de;q=0.9,en;q=0.8", "Anmelden"), ("fr", "Log in"), ("", "Log in")):
            browser.get("/login", headers={"Accept-Language": accepted})
            self.assertIn(word, browser.words())
        browser.get("/login")
        self.assertEqual(browser.post("/language", {"language": "de", "next": "/login"}).location, "/login")
        browser.get("/login", headers={"Accept-Language": "en"})
        self.assertIn('<html lang="de">', browser.text())
        self.assertIn("Anmelden", browser.words())
        browser.post("/language", {"language": "xx", "next": "https://evil.example"})
        self.assertEqual(browser.last.location, "/")

    def test_no_page_is_half_english(self) -> None:
        browser = self.ann()
        browser.send("/language", {"language": "de"})
        for path in PATHS:
            browser.get(path)
            text = re.sub(r"<(\w+)[^>]* lang=\"en\".*?</\1>", "", browser.text(), flags=re.DOTALL)
            words = re.sub(r"<[^>]*>", " ", text)
            for it in ("the ", "The ", " is ", "Find", "Removed", "Back"):
                self.assertNotIn(it, words, path)


class Pages(WebTest):
    def outline(self, browser: Browser, path: str) -> Outline:
        browser.get(path)
        self.assertNotEqual(browser.last.status_code, 500, path)
        return Outline(browser.text())

    def test_each_page_has_one_heading_of_the_first_rank_and_none_is_left_out(self) -> None:
        browser = self.ann()
        for path in PATHS:
            it = self.outline(browser, path)
            self.assertEqual(it.faults, [], path)
            self.assertEqual(it.headings.count("h1"), 1, path)
            self.assertEqual(it.headings[0], "h1", path)
            [root] = it.all("html")
            self.assertEqual(root["lang"], "en")
            self.assertEqual(len(it.all("main")), 1)
            self.assertEqual(it.all("meta")[1]["name"], "viewport")

    def test_each_field_has_a_label_and_each_name_is_one(self) -> None:
        browser = self.ann()
        for path in PATHS:
            it = self.outline(browser, path)
            labels = {label["for"] for label in it.all("label")}
            fields = [field for field in it.all("input", "select", "textarea") if field.get("type") != "hidden"]
            for field in fields:
                self.assertIn(field["id"], labels, path)
            names = [attributes["id"] for _, attributes in it.names if "id" in attributes]
            self.assertEqual(len(names), len(set(names)), (path, names))
            for described in [field["aria-describedby"] for field in fields if "aria-describedby" in field]:
                self.assertIn(described, names, path)

    def test_each_table_has_heads_and_can_be_reached_by_keys(self) -> None:
        browser = self.ann()
        for path in PATHS:
            it = self.outline(browser, path)
            for head in it.all("th"):
                self.assertIn(head["scope"], ("row", "col"), path)
            for region in [attributes for attributes in it.all("div") if attributes.get("class") == "wide"]:
                self.assertEqual((region["tabindex"], region["role"]), ("0", "region"), path)
                self.assertTrue(region["aria-label"], path)

    def test_each_form_that_changes_something_has_the_token_first(self) -> None:
        browser = self.ann()
        for path in PATHS:
            browser.get(path)
            forms = re.findall(r'<form[^>]*method="post"[^>]*>(.*?)</form>', browser.text(), re.DOTALL)
            self.assertTrue(forms, path)
            for it in forms:
                self.assertRegex(it.strip(), r'^<input type="hidden" name="token" value="[^"]{43}">', path)

    def test_a_link_leads_to_a_page_of_this_site(self) -> None:
        browser = self.ann()
        seen: dict[str, Any] = {}
        for path in PATHS:
            for target in [it["href"] for it in self.outline(browser, path).all("a")]:
                if not target.startswith("#") and "court" not in target:
                    seen[target] = path
        for target, path in seen.items():
            self.assertEqual(browser.get(target).status_code, 200, f"{target} on {path}")
