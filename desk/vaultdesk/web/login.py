"""Logging in and out, and the language."""

from __future__ import annotations

import math
import secrets
import urllib.parse
from typing import Any

from vaultdesk import conf
from vaultdesk.output import say
from vaultdesk.web import guard
from vaultdesk.web.libraries import library
from vaultdesk.web.passwords import Crowded
from vaultdesk.web.visit import form, given, goes_to, page, visit

flask = library("flask")


def _target(text: str) -> str:
    """Where one wanted to go, if that is a page of this site; else the first page."""
    parts = urllib.parse.urlsplit(text)
    is_ours = not parts.scheme and not parts.netloc and text.startswith("/") and "\\" not in text
    return text if is_ours and not text.startswith("//") else str(flask.url_for("start"))


def _asked(why: str = "", status: int = 200, name: str = "") -> Any:
    """The form for name and password. Its token is that of a cookie, as there is no session yet."""
    mark = secrets.token_urlsafe(32)
    target = given().get("next") or form().get("next", "")
    answer = flask.make_response(page("login.html", mark=mark, why=why, next=target, name=name), status)
    guard.set_cookie(answer, guard.BEFORE, mark)
    return answer


def _let_in(name: str, digest: str) -> Any:
    """The way on for a user whose password was right, with a new session."""
    it = visit()
    it.site.sessions.end(flask.request.cookies.get(guard.COOKIE, ""))
    cookie, it.session = it.site.sessions.begin(name, digest)
    answer = flask.redirect(_target(form().get("next", "")), 303)
    guard.set_cookie(answer, guard.COOKIE, cookie)
    guard.drop_cookie(answer, guard.BEFORE)
    return answer


def _looked_at(name: str, password: str) -> Any:
    """The answer to a name and a password."""
    it = visit()
    assert it.site.users
    wait = it.site.tries.wait(name, it.address)
    if wait:
        minutes = math.ceil(wait / 60)
        text = it.language.texts(
            "Too many wrong tries: wait %(number)s minute.", "Too many wrong tries: wait %(number)s minutes.", minutes
        )
        say(f"vaultdesk web: {it.address}: too many wrong tries as {name!r}")
        return _asked(text % {"number": minutes}, 429, name)
    try:
        digest = it.site.users.let_in(name, password)
    except Crowded:
        return _asked(it.language.text("Too many log in at this moment: try again in some seconds."), 503, name)
    if digest:
        it.site.tries.was_right(name, it.address)
        return _let_in(name, digest)
    it.site.tries.was_wrong(name, it.address)
    say(f"vaultdesk web: {it.address}: a wrong name or password, as {name!r}")
    return _asked(it.language.text("The name or the password is wrong."), 403, name)


def login() -> Any:
    """Asks for name and password, and looks at them."""
    it = visit()
    if it.site.users is None:
        return goes_to("start")
    if flask.request.method == "GET":
        return _asked() if it.session is None else goes_to("start")
    cookie = flask.request.cookies.get(guard.BEFORE, "")
    if not cookie or not guard.same(flask.request.form.get("token", ""), cookie):
        return _asked(it.language.text("This form is an old one: try again."), 403)
    name = form().get("name", "")
    if not conf.CALLER.fullmatch(name):
        name = "?"  # nobody's; it counts as a try all the same
    return _looked_at(name, flask.request.form.get("password", ""))


def logout() -> Any:
    """Ends the session."""
    it = visit()
    it.site.sessions.end(flask.request.cookies.get(guard.COOKIE, ""))
    it.session = None
    answer = goes_to("login")
    guard.drop_cookie(answer, guard.COOKIE)
    return answer


def language() -> Any:
    """Has the pages be in another language."""
    wanted = form().get("language", "")
    answer = flask.redirect(_target(form().get("next", "")), 303)
    if wanted in visit().site.languages:
        guard.set_cookie(answer, guard.LANGUAGE, wanted)
    return answer


def add(app: Any) -> None:
    """Adds the pages to the site."""
    app.add_url_rule("/login", "login", login, methods=["GET", "POST"])
    app.add_url_rule("/logout", "logout", logout, methods=["POST"])
    app.add_url_rule("/language", "language", language, methods=["POST"])
