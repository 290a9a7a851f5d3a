"""What stands before each page: who it is, the token of a form, the headers of each answer, and the log."""

from __future__ import annotations

import hmac
import time
import urllib.parse
from contextlib import suppress
from typing import Any

from vaultdesk import conf, moments
from vaultdesk.output import say, shown
from vaultdesk.web.libraries import library
from vaultdesk.web.sessions import Session
from vaultdesk.web.texts import chosen
from vaultdesk.web.visit import Site, Visit, page, visit

flask = library("flask")

COOKIE = "__Host-vault"
BEFORE = "__Host-vault-login"  # of who isn't logged in yet
LANGUAGE = "__Host-vault-language"
BY_SCRIPT, NEXT = "Vault-Sent-By", "Vault-Next"  # of a form that `upload.js` sent, and where its answer leads
OPEN = ("static", "login", "language")  # what needs no session
POLICY = (
    "default-src 'none'; style-src 'self'; img-src 'self'; script-src 'self'; connect-src 'self'; form-action 'self'; "
    "base-uri 'none'; frame-ancestors 'none'"
)
HEADERS = {
    "Content-Security-Policy": POLICY,
    "X-Content-Type-Options": "nosniff",
    "X-Frame-Options": "DENY",
    "Referrer-Policy": "same-origin",
    "Cross-Origin-Opener-Policy": "same-origin",
    "Cross-Origin-Resource-Policy": "same-origin",
    "Permissions-Policy": "camera=(), microphone=(), geolocation=()",
    "Cache-Control": "no-store",
}


def set_cookie(answer: Any, name: str, value: str) -> None:
    """Sets a cookie that only this origin gets back, over TLS, and that no script reads; it goes with the browser."""
    answer.set_cookie(name, value, secure=True, httponly=True, samesite="Lax", path="/")


def drop_cookie(answer: Any, name: str) -> None:
    """Has the browser forget a cookie."""
    answer.delete_cookie(name, secure=True, httponly=True, samesite="Lax", path="/")


# ---- who it is


def _address(site: Site) -> str:
    """The client's address: as a trusted proxy says it, or else that of the connection."""
    peer = flask.request.remote_addr or ""
    said = flask.request.headers.get("X-Forwarded-For", "")
    return said.rpartition(",")[2].strip() or peer if peer in site.trusted else peer


def _by_cookie(site: Site) -> Session | None:
    """The session of the request's cookie, where the user is let in still, by the same password."""
    found = site.sessions.find(flask.request.cookies.get(COOKIE, ""))
    if found is None or site.users is None:
        return found
    if site.users.digests().get(found.user) != found.digest:
        site.sessions.end(flask.request.cookies[COOKIE])
        return None
    return found


def _by_header(visit: Visit) -> None:
    """Lets in whom a trusted proxy names. A session that is another user's ends."""
    site, cookie = visit.site, flask.request.cookies.get(COOKIE, "")
    name = flask.request.headers.get(site.header, "")
    is_trusted = flask.request.remote_addr in site.trusted
    if not is_trusted or not conf.CALLER.fullmatch(name):
        visit.session = None
        return
    found = site.sessions.find(cookie)
    if found is None or found.user != name:
        site.sessions.end(cookie)
        visit.cookie, found = site.sessions.begin(name, "")
    visit.session = found


def come(site: Site) -> Any:
    """Looks who asks, and turns away whoever isn't logged in, or sends a form that isn't of these pages."""
    wanted = flask.request.cookies.get(LANGUAGE)
    language = chosen(site.languages, wanted, flask.request.accept_languages)
    flask.g.visit = it = Visit(site, _address(site), language)
    if site.header:
        _by_header(it)
    else:
        it.session = _by_cookie(site)
    if it.session is None and flask.request.endpoint not in OPEN:
        return _turned_away(site)
    if flask.request.method == "POST" and not (_is_of_this_origin() and _has_token(it.session)):
        return page("forged.html"), 403
    return None


def _turned_away(site: Site) -> Any:
    """The page for who isn't logged in."""
    if site.header:
        return page("unknown.html"), 401
    if flask.request.method == "POST":
        return page("ended.html"), 403
    target = flask.request.full_path.rstrip("?")
    return flask.redirect(flask.url_for("login", next=target), 303)


def _is_of_this_origin() -> bool:
    """Whether the browser says of a form that it is one of this site, or says nothing of it."""
    origin = flask.request.headers.get("Origin")
    site = flask.request.headers.get("Sec-Fetch-Site")
    is_ours = origin is None or urllib.parse.urlsplit(origin).netloc == flask.request.host
    return is_ours and site in (None, "same-origin", "none")


def _has_token(session: Session | None) -> bool:
    """Whether a form has the token of its session. Where there is none, only a login looks at another one."""
    is_login = session is None or flask.request.endpoint == "login"
    return is_login or session is not None and same(flask.request.form.get("token", ""), session.token)


def same(given: str, right: str) -> bool:
    """Whether two texts are the same, in a time that doesn't say how much of them is."""
    return hmac.compare_digest(given.encode("utf-8", "replace"), right.encode())


# ---- answers, and the log


def go(answer: Any) -> Any:
    """The answer with the headers that each has, and a line in the log."""
    for name, value in HEADERS.items():
        answer.headers.setdefault(name, value)
    if flask.request.is_secure:  # not so behind a proxy, which says it by itself
        answer.headers["Strict-Transport-Security"] = "max-age=31536000"
    if flask.request.endpoint == "static":
        answer.headers["Cache-Control"] = "max-age=3600"
    it: Visit | None = flask.g.get("visit")
    if it is None:
        return answer
    if it.cookie:
        set_cookie(answer, COOKIE, it.cookie)
    if flask.request.endpoint != "static":
        _log(it, answer.status_code)
    if BY_SCRIPT in flask.request.headers and answer.status_code == 303:  # which a script can't see
        answer.status_code, answer.headers[NEXT] = 200, answer.headers.pop("Location")
    return answer


def _log(it: Visit, status: int) -> None:
    """A line: when, from where, who, what, how it was answered and in how many milliseconds, and the lines that the
    engine was asked."""
    took = int((time.monotonic() - it.begun) * 1000)
    target = shown(flask.request.full_path.rstrip("?"))
    lines = it.opened.lines if it.opened else []
    more = f" [{'; '.join(lines)}]" if lines else ""
    who = it.user or "-"
    with suppress(OSError):  # whoever read the log is gone
        say(f"{moments.now()} {it.address} {who} {flask.request.method} {target} {status} {took}ms{shown(more)}")


def end(_: BaseException | None = None) -> None:
    """Lets go of what the request had open."""
    it: Visit | None = flask.g.get("visit")
    if it is not None and it.opened is not None:
        it.opened.close()


def token() -> str:
    """The token that each form has."""
    it = visit()
    return it.session.token if it.session else ""
