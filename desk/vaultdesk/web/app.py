"""The site: its pages by families, what is said where one is refused, and what templates may use."""

from __future__ import annotations

import traceback
from typing import Any

from vaultdesk import __version__, moments
from vaultdesk.errors import DeskError, EngineError, Refused
from vaultdesk.output import say
from vaultdesk.web import asked, delivering, document, finding, guard, holding, login, putting, reporting, state
from vaultdesk.web.libraries import library
from vaultdesk.web.texts import NAMES
from vaultdesk.web.visit import MOST, Site, page, visit

flask, jinja = library("flask"), library("jinja2")
exceptions = library("werkzeug.exceptions")

FAMILIES = (login, finding, document, putting, holding, delivering, reporting, state)
PARTS = 20_000  # files and fields of a form
STATUS = {
    "AccessDenied": 403, "NoSuchBucket": 404, "NoSuchKey": 404, "NoSuchVersion": 404, "Device": 503, "Memory": 503,
    "ClockBack": 503, "ClockOutOfRange": 503,
}  # fmt: skip


def _said(error: DeskError) -> Any:
    """The page of what was refused, or wasn't understood."""
    status = 400
    if isinstance(error, Refused):
        status = STATUS.get(error.code, 409)
    elif isinstance(error, EngineError):
        say(f"vaultdesk web: {error}")
        status = 503
    return page("refused.html", error=error, is_refused=isinstance(error, Refused), status=status), status


def _of_http(error: Any) -> Any:
    """The page of a fault of HTTP, as a path that isn't there."""
    return page("fault.html", status=error.code), error.code


def _unknown(error: Exception) -> Any:
    """The page of a fault of these pages, whose cause is in the log alone."""
    for line in traceback.format_exception(error):
        say(line.rstrip("\n"))
    return page("fault.html", status=500), 500


def _gettext(text: str) -> str:
    return visit().language.text(text)


def _ngettext(one: str, many: str, count: int) -> str:
    return visit().language.texts(one, many, count)


def _templates(app: Any) -> None:
    """What templates may use."""
    environment = app.jinja_env
    environment.undefined = jinja.StrictUndefined
    environment.trim_blocks = environment.lstrip_blocks = True
    environment.add_extension("jinja2.ext.i18n")
    environment.install_gettext_callables(_gettext, _ngettext, newstyle=True)
    environment.filters["moment"] = lambda text: visit().language.moment(text)
    environment.filters["number"] = lambda value: visit().language.number(value)
    environment.filters["size"] = lambda value: visit().language.size(value)
    environment.filters["zip_same"] = lambda names: [(it, it) for it in names]
    environment.globals |= {"visit": visit, "_token": guard.token, "names_of_languages": NAMES, "version": __version__}
    environment.globals["there"] = app.view_functions


def prepare(app: Any, site: Site) -> None:
    """Does before anybody comes what the first ones would wait for, each of them once: the desk's words, the templates,
    and how each language writes moments and numbers."""
    asked.prepare()
    for name in app.jinja_env.list_templates():
        app.jinja_env.get_template(name)
    for it in site.languages.values():
        it.moment(moments.now())
        it.size(MOST)


def made(site: Site) -> Any:
    """The site as a WSGI application."""
    app = flask.Flask("vaultdesk.web", root_path=str(__file__).rpartition("/")[0])
    app.request_class = type("Request", (flask.Request,), {"max_form_parts": PARTS})
    app.config["MAX_CONTENT_LENGTH"] = MOST
    _templates(app)
    app.before_request(lambda: guard.come(site))
    app.after_request(guard.go)
    app.teardown_request(guard.end)
    app.register_error_handler(DeskError, _said)
    app.register_error_handler(exceptions.HTTPException, _of_http)
    app.register_error_handler(Exception, _unknown)
    for family in FAMILIES:
        family.add(app)
    return app
