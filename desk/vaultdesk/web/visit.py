"""One request: who asks, from where, in which language, and the engine that is asked for them."""

from __future__ import annotations

import time
from collections.abc import Iterator, Mapping
from contextlib import contextmanager
from dataclasses import dataclass, field
from pathlib import Path
from typing import Any

from vaultdesk.config import Desk
from vaultdesk.engine import Engine
from vaultdesk.web import asked
from vaultdesk.web.asked import Done
from vaultdesk.web.copies import Copies
from vaultdesk.web.engine import PageEngine
from vaultdesk.web.libraries import library
from vaultdesk.web.passwords import Users
from vaultdesk.web.sessions import Session, Sessions
from vaultdesk.web.texts import Language
from vaultdesk.web.tries import Tries

flask = library("flask")
MOST = 1_073_741_824  # bytes of a request


@dataclass
class Site:
    """What all requests have in common. `header` names the user where a proxy knows who it is; `trusted` are the
    addresses of proxies, which are asked for it."""

    name: str
    desk: Desk
    copies: Copies
    languages: dict[str, Language]
    users: Users | None = None
    header: str = ""
    trusted: frozenset[str] = frozenset()
    scratch: Path | None = None
    sessions: Sessions = field(default_factory=Sessions)
    tries: Tries = field(default_factory=Tries)
    allowed: dict[str, tuple[Any, dict[Any, bool]]] = field(default_factory=dict)


@dataclass
class Visit:
    """A request as it is looked at: `session` is none for who isn't logged in."""

    site: Site
    address: str
    language: Language
    session: Session | None = None
    cookie: str = ""
    begun: float = field(default_factory=time.monotonic)
    opened: PageEngine | None = None

    @property
    def user(self) -> str:
        """Who is logged in; empty where nobody is."""
        return self.session.user if self.session else ""

    @property
    def engine(self) -> PageEngine:
        """The engine, asked by the user."""
        if self.opened is None:
            desk = self.site.desk
            mine = Desk(desk.program, desk.vault, self.user or None, desk.door, desk.limits)
            self.opened = PageEngine(mine, self.site.copies)
        return self.opened

    @contextmanager
    def apart(self) -> Iterator[Engine]:
        """The engine with a copy of its own, for what audits the whole vault by the program: it lets nobody else read
        the copy meanwhile."""
        with Engine(self.engine.desk) as engine:
            yield engine

    def done(self, command: str, **given: Any) -> Done:
        """What a subcommand of the desk comes to, asked by the user."""
        return asked.done(self.engine, command, **given)

    def note(self, *texts: str) -> None:
        """Has the next page say these."""
        if self.session:
            self.session.notes += [it for it in texts if it]


def visit() -> Visit:
    """The request that is answered now."""
    found: Visit = flask.g.visit
    return found


def form() -> Mapping[str, str]:
    """The texts of the form that was sent, without blanks around them."""
    return {name: value.strip() for name, value in flask.request.form.items()}


def given() -> Mapping[str, str]:
    """The texts after the `?` of the path, without blanks around them."""
    return {name: value.strip() for name, value in flask.request.args.items()}


def page(template: str, **values: Any) -> Any:
    """The page that a template makes."""
    return flask.render_template(template, **values)


def goes_to(endpoint: str, **values: Any) -> Any:
    """Has the browser ask for another page."""
    return flask.redirect(flask.url_for(endpoint, **values), 303)
