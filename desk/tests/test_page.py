"""The page of what a vault holds."""

from __future__ import annotations

from tests.office import OfficeTest

KEY = "<b>&amp;</b>"


class Page(OfficeTest):
    def test_keys_are_text_and_no_markup(self) -> None:
        put = {"do": "put", "bucket": "docs", "key": KEY, "text": "x"}
        self.lines(put, put, {"do": "delete-version", "bucket": "docs", "key": KEY, "id": 1})
        page = self.done("page", str(self.file), at=None)
        self.assertIn("&lt;b&gt;&amp;amp;&lt;/b&gt;", page)
        self.assertNotIn(KEY, page)

    def test_one_word_that_ends_as_a_page_is_the_pages_file(self) -> None:
        out = self.folder / "page.html"
        self.assertEqual(self.done("page", str(out)), "")
        self.assertEqual(out.read_text(), self.done("page"))
        self.assertEqual(self.done("page", str(self.file)), self.done("page"))
        self.assertEqual(self.desk("page", str(out)).status, 1)
        self.assertEqual(self.done("page", str(self.file), str(out), "--force"), "")
