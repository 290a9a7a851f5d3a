"""The facts of a document, shown and changed: facts."""

from __future__ import annotations

import argparse
from collections.abc import Sequence

from vaultdesk import cards, columns, dates, moments, schedule
from vaultdesk.engine import Engine
from vaultdesk.errors import UsageError
from vaultdesk.history import number
from vaultdesk.output import print_json, print_table, say

ABOUT = """Shows the facts of a document: title, date, class, sender, reference, and those that the settings name. With
--set they are changed: a new version of the facts, with the lock that the document has now; earlier ones stay. An empty
value takes a fact away. They are of the content that is current, or of --version N."""


def _given(texts: Sequence[str]) -> dict[str, str]:
    """The facts that NAME=VALUE give. `UsageError` where one isn't understood."""
    known = {columns.folded(it): it for it in (*cards.NAMES, *columns.fields())}
    found = {}
    for it in texts:
        name, sign, value = it.partition("=")
        what = known.get(columns.folded(name))
        if not sign or not what:
            raise UsageError(f"--set {it}: write NAME=VALUE, where NAME is one of {', '.join(known.values())}")
        is_day = what == "date" and value.strip()
        found[what] = dates.day_of(value.strip()).isoformat() if is_day else value.strip()
    return found


def facts(engine: Engine, words: argparse.Namespace) -> None:
    """Prints the facts of a document, or changes them first."""
    given = _given(words.set or [])
    why = cards.why_not(words.key)
    if why:
        raise UsageError(f"{why}: nothing was changed")
    head = engine.ask("head", bucket=words.bucket, key=words.key, id=words.version)
    card = cards.of(engine, words.bucket, words.key, head["sha256"])
    version = None
    if given:
        card = card.with_facts(given)
        card = schedule.classed(engine, card) if "class" in given else card
        lock = cards.lock_of(head, engine.at or moments.now())
        version = cards.put(engine, (words.bucket, words.key), card, head["sha256"], lock)
    found = card.shown()
    if words.json:
        print_json({"version": head["version_id"], "bucket": words.bucket, "key": words.key, "facts": found})
        return
    print_table([{"what": name, "is": it} for name, it in found.items()], ("what", "is"), as_json=False)
    if version is not None:
        stays = "; its retention stays as it is: vaultdesk retain sets another" if "class" in given else ""
        say(f"version {version} has them, {cards.key_of(words.key)}{stays}")
    elif not found:
        say(f"nothing is noted of version {head['version_id']}: vaultdesk facts --set does that")


def add(commands: argparse._SubParsersAction[argparse.ArgumentParser], common: argparse.ArgumentParser) -> None:
    """Adds the subcommand to the desk's words."""
    example = 'Example: vaultdesk facts letters 2025/002 --set "title=Permit of use" --set sender=Miller'
    what = "the facts of a document, such as its title and its sender: shown, or changed"
    it = commands.add_parser("facts", parents=[common], help=what, description=ABOUT, epilog=example)
    it.add_argument("bucket")
    it.add_argument("key")
    it.add_argument("--version", type=number, metavar="N", help="that version, and not the current one")
    it.add_argument("--set", metavar="NAME=VALUE", action="append", help="a new value of a fact")
    it.set_defaults(run=facts)
