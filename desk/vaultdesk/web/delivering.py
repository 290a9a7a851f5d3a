"""A delivery: files are sent first, then the desk says what it will do with each, and then they are taken in."""

from __future__ import annotations

import secrets
import tempfile
from collections.abc import Iterable
from dataclasses import dataclass, field
from pathlib import Path, PurePosixPath
from typing import Any

from vaultdesk import dates, plan
from vaultdesk.asking import Unconfirmed
from vaultdesk.columns import ALL
from vaultdesk.errors import DeskError, UsageError
from vaultdesk.web.allowed import look_at, own_buckets
from vaultdesk.web.asked import Done
from vaultdesk.web.changing import asks_back, given_yes
from vaultdesk.web.finding import as_csv
from vaultdesk.web.libraries import library
from vaultdesk.web.visit import MOST as REQUEST
from vaultdesk.web.visit import form, goes_to, page, visit

flask = library("flask")

FILES = REQUEST - 1_000_000  # bytes of a delivery's files: a request has less than the rest besides
MOST = 2  # deliveries that a session has before they are taken in
ROWS = 300  # of the plan on a page; the others are in its CSV
TEXTS = ("bucket", "batch", "until", "mode", "dates", "sheet", "keep_inventory")
TICKS = ("recursive", "skip_held", "leave_out")
NOTHING = dict.fromkeys((*TEXTS, "columns", "ignore_columns", "inventory", "classes", *TICKS))


@dataclass
class Sent:
    """A delivery that was sent, and isn't taken in yet: its files, its lists, and the words for the desk."""

    place: tempfile.TemporaryDirectory[str]
    words: dict[str, Any] = field(default_factory=lambda: dict(NOTHING))

    @property
    def files(self) -> Path:
        """The folder of the files."""
        return Path(self.place.name) / "files"

    def end(self) -> None:
        """Removes them."""
        self.place.cleanup()

    def said(self, text: str) -> str:
        """A text of the desk without the names of this server's folders."""
        for folder in (self.files, Path(self.place.name) / "inventory", Path(self.place.name) / "classes"):
            text = text.replace(f"{folder}/", "").replace(str(folder), "the folder")
        return text

    def done(self, **more: Any) -> Done:
        """What the desk makes of it. `DeskError` as of the desk."""
        try:
            found = visit().done("deliver", folder=str(self.files), **self.words, **more)
        except Unconfirmed:
            raise
        except DeskError as error:
            error.args = (self.said(str(error)),)
            raise
        return Done(found.value, [self.said(it) for it in found.said], found.error)


# ---- what is sent


def inner_path(name: str) -> PurePosixPath:
    """The path of a file that a browser sends, within the delivery. `UsageError` where it would lead out of it."""
    parts = name.split("/")
    is_plain = all(it not in ("", ".", "..") and it.isprintable() and len(it.encode()) < 256 for it in parts)
    if not is_plain or "\\" in name or len(parts) > 20:
        raise UsageError(f"{name!r} is no path of a file of the delivery: nothing was taken in")
    return PurePosixPath(*parts)


def _without_top(paths: list[PurePosixPath]) -> list[PurePosixPath]:
    """The paths without the name of the one folder that was chosen."""
    tops = {it.parts[0] for it in paths}
    is_folder = len(tops) == 1 and all(len(it.parts) > 1 for it in paths)
    return [PurePosixPath(*it.parts[1:]) for it in paths] if is_folder else paths


def _save(sent: Sent, files: Iterable[Any]) -> None:
    """Saves the files of a form, each in its place."""
    named = [it for it in files if it.filename]
    for file, path in zip(named, _without_top([inner_path(it.filename) for it in named]), strict=True):
        target = sent.files / path
        if target.exists():
            raise UsageError(f"{path} was sent twice: nothing was taken in")
        target.parent.mkdir(parents=True, exist_ok=True)
        file.save(target)


def _save_list(sent: Sent, name: str) -> None:
    """Saves the inventory, or the file of classes, where one was sent."""
    file = flask.request.files.get(name)
    if file is not None and file.filename:
        folder = Path(sent.place.name) / name
        folder.mkdir(exist_ok=True)
        path = folder / inner_path(file.filename).name
        file.save(path)
        sent.words[name] = str(path)


def _take_words(sent: Sent) -> None:
    """Takes the words of a form over."""
    given = form()
    columns = [it for it in given.get("columns", "").splitlines() if it.strip()]
    sent.words |= {it: given.get(it) or None for it in TEXTS if it in given}
    sent.words |= {it: it in given for it in TICKS}
    sent.words |= {"columns": columns or None, "ignore_columns": [ALL] if "ignore_columns" in given else None}
    for it in ("inventory", "classes"):
        _save_list(sent, it)


# ---- its pages


def _kept() -> dict[str, Any]:
    """The deliveries that this session has sent, by their names."""
    session = visit().session
    assert session
    return session.kept


def _sent(name: str) -> Sent:
    """A delivery of this session. `DeskError` where it has ended."""
    found = _kept().get(name)
    if not isinstance(found, Sent):
        raise DeskError("this delivery isn't there any more: it was taken in, or the session has ended: send it again")
    return found


def deliver() -> Any:
    """Asks for the files of a delivery."""
    waiting = [(name, it.words) for name, it in _kept().items()]
    return page("deliver.html", buckets=own_buckets(), waiting=waiting, orders=dates.ORDERS, most=FILES)


def send() -> Any:
    """Takes the files of a delivery to the server, and leads to its plan."""
    look_at(form().get("bucket", ""))
    sent = Sent(tempfile.TemporaryDirectory(prefix="vaultdesk-deliver-"))
    try:
        sent.files.mkdir()
        _save(sent, [*flask.request.files.getlist("folder"), *flask.request.files.getlist("files")])
        _take_words(sent)
    except BaseException:
        sent.end()
        raise
    kept = _kept()
    while len(kept) >= MOST:
        kept.pop(next(iter(kept))).end()
    name = secrets.token_urlsafe(16)
    kept[name] = sent
    return goes_to("plan", name=name)


def plan_page(name: str) -> Any:
    """What the desk would do with a delivery, row by row; or what it doesn't understand of it."""
    sent, error, done = _sent(name), None, None
    try:
        done = sent.done(dry_run=True)
    except DeskError as fault:
        error = fault
    rows = done.value["plan"] if done else []
    wrong = sum(it["note"].startswith("wrong: ") for it in rows)
    facts = {"rows": rows[:ROWS], "count": len(rows), "wrong": wrong, "said": done.said if done else []}
    return page("plan.html", name=name, words=sent.words, error=error, orders=dates.ORDERS, **facts)


def plan_words(name: str) -> Any:
    """Takes other words for a delivery that was sent, and leads to its plan."""
    _take_words(_sent(name))
    return goes_to("plan", name=name)


def plan_csv(name: str) -> Any:
    """The whole plan."""
    return as_csv(_sent(name).done(dry_run=True).value["plan"], plan.COLUMNS, "plan.csv")


def take_in(name: str) -> Any:
    """Takes a delivery in, and says what became of each row."""
    sent = _sent(name)
    try:
        done = sent.done(**given_yes("yes", "again"))
    except Unconfirmed as error:
        return asks_back(error)
    if "rows" not in done.value:  # nothing was taken in
        raise done.error or DeskError("nothing was taken in")
    _kept().pop(name).end()
    return page("delivered.html", done=done, words=sent.words)


def drop(name: str) -> Any:
    """Removes a delivery that was sent."""
    _sent(name)
    _kept().pop(name).end()
    return goes_to("deliver")


def add(app: Any) -> None:
    """Adds the pages to the site."""
    app.add_url_rule("/deliver", "deliver", deliver)
    app.add_url_rule("/send-delivery", "send", send, methods=["POST"])
    app.add_url_rule("/deliver/<name>", "plan", plan_page)
    app.add_url_rule("/deliver/<name>/words", "plan_words", plan_words, methods=["POST"])
    app.add_url_rule("/deliver/<name>/plan.csv", "plan_csv", plan_csv)
    app.add_url_rule("/deliver/<name>/take-in", "take_in", take_in, methods=["POST"])
    app.add_url_rule("/deliver/<name>/drop", "drop", drop, methods=["POST"])
