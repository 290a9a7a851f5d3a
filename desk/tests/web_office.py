"""The pages for tests: over an office's vault that is served, as a browser asks for them."""

from __future__ import annotations

import contextlib
import html
import importlib
import importlib.util
import io
import re
import subprocess
import unittest
from collections.abc import Mapping
from pathlib import Path
from typing import Any
from unittest import mock

from tests.office import PROGRAM, OfficeTest
from tests.served import started
from vaultdesk.config import Desk

LIBRARIES = ("flask", "waitress", "argon2", "babel")
LACKING = [it for it in LIBRARIES if importlib.util.find_spec(it) is None]
WHY = f"python3-{LACKING[0]} isn't there" if LACKING else ""
PASSWORD = "a long password"
ORIGIN = "https://vault.test"


def library(name: str) -> Any:
    """A module that may not be there."""
    return importlib.import_module(name)


def quick_hasher() -> Any:
    """Makes digests that take no time."""
    return library("argon2").PasswordHasher(time_cost=1, memory_cost=64, parallelism=1)


def quick_digest(password: str = PASSWORD) -> str:
    """A digest that takes no time."""
    return str(quick_hasher().hash(password))


class Browser:
    """A client with cookies of its own, which fills in forms as a person does."""

    def __init__(self, app: Any) -> None:
        self.client = app.test_client()
        self.last: Any = None

    def get(self, path: str, **how: Any) -> Any:
        """The answer to a GET."""
        self.last = self.client.get(path, base_url=ORIGIN, **how)
        return self.last

    def post(self, path: str, form: Mapping[str, Any] | None = None, **how: Any) -> Any:
        """The answer to a form without more than these fields."""
        kind = "multipart/form-data" if form and any(isinstance(it, (tuple, list)) for it in form.values()) else None
        self.last = self.client.post(path, data=dict(form or {}), content_type=kind, base_url=ORIGIN, **how)
        return self.last

    def send(self, path: str, form: Mapping[str, Any] | None = None, **how: Any) -> Any:
        """The answer to a form with the token of the page that was seen last."""
        return self.post(path, {"token": self.token(), **(form or {})}, **how)

    def token(self) -> str:
        """The token of the first form of the page that was seen last."""
        found = re.search(r'name="token" value="([^"]*)"', self.text())
        return found[1] if found else ""

    def text(self) -> str:
        """The page that was seen last, as it was sent."""
        return str(self.last.get_data(as_text=True))

    def words(self) -> str:
        """Its words alone."""
        without = re.sub(r"<[^>]*>", " ", self.text())
        return " ".join(html.unescape(without).split())

    def login(self, name: str = "ann", password: str = PASSWORD) -> Any:
        """Logs in, by the form."""
        self.get("/login")
        return self.send("/login", {"name": name, "password": password})

    def cookie(self, name: str = "__Host-vault") -> str | None:
        """The value of a cookie that it has."""
        return next((it.value for it in self.client.cookie_jar if it.name == name), None)


@unittest.skipIf(LACKING, WHY)
class WebTest(OfficeTest):
    """The pages of the office's vault, which a server has; `ann` may do all in `records`, `bea` put and list there, and
    `cid` is of another department."""

    made: dict[str, bytes] = {}  # the files of the vault, which is made once for all tests
    HEADER = ""

    def make(self) -> None:
        """Makes the vault, or a copy of one that was made."""
        if not self.made:
            super().make()
            plain = ["put", "list"]
            self.lines(
                {"do": "add-caller", "as": "registrar", "caller": "bea", "dept": "records", "rights": plain},
                {"do": "add-dept", "as": "registrar", "dept": "court"},
                {"do": "add-caller", "as": "registrar", "caller": "cid", "dept": "court",
                 "rights": ["put", "get", "list", "report", "delete-version"]},
                {"do": "add-bucket", "as": "registrar", "bucket": "cases", "dept": "court"},
                {"do": "put", "bucket": "docs", "key": "2024/001 Miller.txt", "text": "a letter"},
                {"do": "put", "as": "cid", "bucket": "cases", "key": "secret/Smith", "text": "a case"},
            )  # fmt: skip
            self.made.update({it: Path(f"{self.file}{it}").read_bytes() for it in ("", "-wal")})
        for name, content in self.made.items():
            Path(f"{self.file}{name}").write_bytes(content)

    def setUp(self) -> None:
        super().setUp()
        self.where = str(self.folder / "records.lines")
        self.server = self.served_anew()
        self.users = self.folder / "web.users"
        names = ("ann", "bea", "cid", "registrar", "nobody")
        self.users.write_text("".join(f"{it}:{quick_digest()}\n" for it in names))
        self.enterContext(mock.patch.object(library("vaultdesk.web.passwords"), "HASHER", quick_hasher()))
        self.log = self.enterContext(contextlib.redirect_stderr(io.StringIO()))
        self.now = 0.0
        self.site = self.made_site()
        self.app = library("vaultdesk.web.app").made(self.site)
        self.addCleanup(self.site.sessions.end_all)
        self.browser = Browser(self.app)

    def served_anew(self) -> subprocess.Popen[str]:
        """A server of the vault, which is started now."""
        return started(self, self.file, self.where)

    def made_site(self) -> Any:
        """What all requests have in common."""
        visit, texts = library("vaultdesk.web.visit"), library("vaultdesk.web.texts")
        copies = library("vaultdesk.web.copies").Copies(self.file)
        self.addCleanup(copies.close)
        desk = Desk(PROGRAM, self.file, None, self.where)
        users = None if self.HEADER else library("vaultdesk.web.passwords").Users(self.users)
        site = visit.Site("records", desk, copies, texts.languages(), users, self.HEADER, frozenset({"127.0.0.1"}))
        site.sessions = library("vaultdesk.web.sessions").Sessions(lambda: self.now)
        site.tries = library("vaultdesk.web.tries").Tries(lambda: self.now)
        return site

    def ann(self) -> Browser:
        """A browser in which `ann` is logged in, on the first page."""
        return self.of("ann")

    def of(self, name: str) -> Browser:
        """A browser in which that user is logged in, on the first page."""
        found = Browser(self.app)
        self.assertEqual(found.login(name).status_code, 303, found.words())
        self.assertEqual(found.get("/").status_code, 200, found.words())
        return found
