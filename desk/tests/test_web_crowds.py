"""Many users of the pages at once: what is done before the first one comes, copies that they share, and logins."""

from __future__ import annotations

import itertools
import threading
from pathlib import Path
from unittest import mock

from tests.web_office import PASSWORD, Browser, WebTest, library

PATHS = ("/", "/find?text=Miller", "/bucket/docs", "/put", "/holds", "/removed", "/reports", "/state", "/version/1")
LONG = 300.0  # seconds that a test waits at most


class Ready(WebTest):
    def test_nothing_is_made_as_the_first_users_come(self) -> None:
        asked = library("vaultdesk.web.asked")
        for it in (asked._parsers, asked._left_out):
            it.cache_clear()
        library("vaultdesk.web.app").prepare(self.app, self.site)
        late = AssertionError("this is made as a page is asked for")
        self.enterContext(mock.patch.object(library("jinja2").Environment, "compile", side_effect=late))
        self.enterContext(mock.patch("vaultdesk.cli.words", side_effect=late))
        browser = self.ann()
        for path in PATHS:
            self.assertEqual(browser.get(path).status_code, 200, path)


class Copies(WebTest):
    def test_those_who_wait_share_a_copy_that_was_begun_after_they_asked(self) -> None:
        module = library("vaultdesk.web.copies")
        copies, made, goes_on = module.Copies(self.file), list[float](), threading.Event()
        clock, is_asked, turn = itertools.count(1), threading.Event(), threading.Lock()

        def monotonic() -> float:
            with turn:
                now = next(clock)
            if now == 9:  # the first one has asked, and begun; the others have asked
                is_asked.set()
            return float(now)

        def copy(_: object, begun: float) -> object:
            made.append(begun)
            if len(made) == 1:
                goes_on.wait(LONG)
            return module.Copy(begun, (), False, mock.Mock(), Path(f"copy {len(made)}"))

        self.enterContext(mock.patch.object(module.time, "monotonic", monotonic))
        self.enterContext(mock.patch.object(module.Copies, "_made", copy))
        found = list[str]()
        threads = [threading.Thread(target=lambda: found.append(copies.take().file.name)) for _ in range(8)]
        for it in threads:
            it.start()
        self.assertTrue(is_asked.wait(LONG))
        goes_on.set()
        for it in threads:
            it.join()
        self.assertEqual(sorted(found), ["copy 1", *["copy 2"] * 7])
        self.assertEqual(copies.take().file.name, "copy 3", "who asks later reads an older copy")


class Logins(WebTest):
    def test_they_leave_threads_to_the_pages(self) -> None:
        module, begun, goes_on = library("vaultdesk.web.passwords"), threading.Event(), threading.Event()
        ann, late = self.ann(), Browser(self.app)

        def verify(*_: str) -> bool:
            begun.set()
            return goes_on.wait(LONG)

        self.enterContext(mock.patch.object(module, "COMING", threading.BoundedSemaphore(1)))
        first = threading.Thread(target=lambda: self.of("bea"))
        with mock.patch.object(module, "HASHER", mock.Mock(verify=verify)):
            first.start()
            self.assertTrue(begun.wait(LONG))
            self.assertEqual(late.login("cid", PASSWORD).status_code, 503)
            self.assertIn("Too many log in at this moment", late.words())
            self.assertEqual(ann.get("/").status_code, 200)
            goes_on.set()
            first.join()
        self.assertEqual(late.login("cid", PASSWORD).status_code, 303, "a login that is over still counts")
