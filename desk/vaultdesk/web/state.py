"""How the vault is: its nights, copies and seals, its server, and what an audit says of it now."""

from __future__ import annotations

from collections.abc import Iterator
from typing import Any

from vaultdesk import conf, copies, evidence, last_done, moments, recheck
from vaultdesk.errors import DeskError, UsageError
from vaultdesk.web import asked
from vaultdesk.web.allowed import allowed
from vaultdesk.web.visit import form, page, visit

LOOKS = ("verify", "lawful", "check-seals")  # each audits the whole vault, on a copy
SHOWN = 10  # copies on the page


def _nights() -> dict[str, str]:
    """When each part of a night was last done."""
    return {it: moments.of_seconds(at) for it, at in last_done.read(visit().engine.desk.file).items()}


def _copies() -> tuple[list[str], str]:
    """The moments of the night's copies, newest first; and why they aren't known."""
    name = visit().engine.desk.file.name.removesuffix(".vault")
    try:
        if not conf.is_configured(name):
            return [], f"{name} has no configuration that says where copies are"
        found = copies.found_in(conf.read(name).backup(), name)
        return [copies.made_at(it) for it in found if not it.name.endswith(".damaged")], ""
    except DeskError as error:
        return [], str(error)


def _seals() -> tuple[list[str], str]:
    """The moments of the seals beside the vault, newest first; and why they aren't known."""
    path = evidence.seals_beside(visit().engine.desk.file)
    if not path.is_file():
        return [], ""
    try:
        found = [recheck.vault.moment_text(it.before) for it in evidence.read_seals(path).seals]
    except DeskError as error:
        return [], str(error)
    return sorted(found, reverse=True), ""


def _server() -> Iterator[tuple[str, Any]]:
    """What the server says of itself, to who administers."""
    done = visit().done("status")
    yield from done.value.items()
    if done.error:
        visit().note(str(done.error))


def state() -> Any:
    """The page of how the vault is."""
    is_admin = allowed().administers()
    made, why_no_copies = _copies()
    seals, why_no_seals = _seals()
    lists = {"nights": _nights(), "copies": made[:SHOWN], "copy_count": len(made), "seals": seals[:SHOWN]}
    why = {"why_no_copies": why_no_copies, "why_no_seals": why_no_seals, "seal_count": len(seals)}
    of_admin = {"server": dict(_server()), "looks": LOOKS} if is_admin else {"server": {}, "looks": ()}
    return page("state.html", **of_admin, **lists, **why)


def look() -> Any:
    """Has the whole vault be looked at, on a copy: for who administers, as it takes the machine's time."""
    wanted = form().get("look", "")
    if wanted not in LOOKS:
        raise UsageError(f"{wanted!r} is no look")
    if not allowed().administers():
        visit().done("status")  # the server says why not
    with visit().apart() as engine:
        done = asked.done(engine, wanted)
    return page("looked.html", wanted=wanted, done=done)


def add(app: Any) -> None:
    """Adds the pages to the site."""
    app.add_url_rule("/state", "state", state)
    app.add_url_rule("/state/look", "look", look, methods=["POST"])
