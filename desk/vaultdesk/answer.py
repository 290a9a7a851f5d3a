"""The page for a court: what the vault has of one version, what guarded it at a moment, and what that shows."""

from __future__ import annotations

import argparse
from collections.abc import Iterator, Sequence
from dataclasses import dataclass, field
from pathlib import Path

from vaultdesk import __version__, evidence, events, moments, noted, paper, reading, recheck, wiped
from vaultdesk.court_page import WHAT, Page, Part, as_html, as_json, as_text
from vaultdesk.engine import Engine
from vaultdesk.errors import DeskError
from vaultdesk.events import Event, Guards
from vaultdesk.history import document_of, life_of, number
from vaultdesk.output import print_json, say_while_long

MOST_CONTRADICTIONS = 10
UNSHOWN = (
    "When the vault was made. A command is dated as its user says, though never before the vault's last change, so a "
    "whole vault with earlier dates can be made later. Only a seal or a copy that somebody else had at the time shows "
    "that it was there.",
    "What was tried and what was read: the vault keeps neither refused commands nor reads.",
    "Which person it was. The vault takes the name that it is given; who may give it is for the machine to guard.",
    "What the content says, or who wrote it. The vault has its bytes, and here is their digest.",
)


@dataclass(frozen=True)
class Checked:
    """What vault-recheck found. `sealed` is the last moment whose seal comes out of the file, `torn` what was cut."""

    last: str
    breach: str
    contradictions: Sequence[str] = ()
    seals: Path | None = None
    count: int = 0
    differing: Sequence[str] = field(default_factory=list)
    sealed: str = ""
    torn: Sequence[str] = ()

    @property
    def is_good(self) -> bool:
        """Whether nothing was found that speaks against the history."""
        return not self.against

    @property
    def against(self) -> Sequence[str]:
        """What speaks against the history."""
        return [*filter(None, [self.breach]), *self.contradictions, *self.differing]


# ---- what guarded it


def _retention_sentences(guards: Guards) -> Iterator[str]:
    lock, retained, mode_since = guards.lock, guards.retained, guards.mode_since
    if lock is None or retained is None or mode_since is None:
        yield "It had no retention."
        return
    if not lock.in_force(guards.at):
        yield f"Its retention in {lock.mode} had ended at {lock.until}, and guarded it no longer."
    elif lock.mode == "COMPLIANCE":
        yield f"Its retention in COMPLIANCE was in force, until {lock.until}: nobody could remove it, with any right."
    else:
        yield (
            f"Its retention in GOVERNANCE was in force, until {lock.until}: only a caller with the right bypass could "
            "remove it, who asked for just that."
        )
    yield f"That retention was set at {retained.moment} by {retained.who}."
    if mode_since != retained:
        yield f"It was in {lock.mode} from {mode_since.moment} on, set by {mode_since.who}."


def _hold_sentence(guards: Guards, found: Sequence[Event]) -> str:
    if guards.held_since:
        since = guards.held_since
        return f"A legal hold was on, put on at {since.moment} by {since.who}: nobody could remove it before its end."
    settings = [it for it in events.up_to(found, guards.at) if it.event == "locked"]
    lifted = [new for old, new in zip(settings, settings[1:]) if old.hold == "ON" and new.hold == "OFF"]
    if lifted:
        return f"No legal hold was on; the last one was lifted at {lifted[-1].moment} by {lifted[-1].who}."
    return "No legal hold was on, and none had been."


def guard_sentences(found: Sequence[Event], guards: Guards) -> Iterator[str]:
    """What guarded the version of these events at the moment of the guards, in sentences."""
    if guards.at < found[0].moment:
        yield f"It wasn't in the vault yet: it was admitted at {found[0].moment}."
        return
    if found[0].kind == "marker":
        yield "It is a delete marker, which has no content, and on which no retention and no legal hold can be."
    if guards.removed:
        yield f"It was no longer in the vault: it had been removed at {guards.removed.moment} by {guards.removed.who}."
        if found[0].kind == "version":
            yield f"As it was removed, at {guards.removed.moment}:"
            guards = events.guards_at(found, guards.removed.moment)
    elif found[0].kind == "version":
        yield f"The department {guards.department} held it."
    if found[0].kind == "version":
        yield from _retention_sentences(guards)
        yield _hold_sentence(guards, found)


# ---- what was checked


def _checked(engine: Engine, given: str | None) -> Checked:
    """What vault-recheck says of the vault, and of the seals that are given or beside its file."""
    beside = evidence.seals_beside(engine.desk.file)
    path = Path(given) if given else beside if beside.is_file() else None
    read = evidence.given_seals if given else evidence.read_seals
    seals, torn = read(path) if path else evidence.Sealed([], [])
    say_while_long(f"{recheck.WHO}, audits the file first")
    with recheck.audited(engine.tables) as base:
        last = recheck.vault.moment_text(recheck.vault.meta_of(base).last)
        breach = recheck.lawful.first_breach(base)
        contradictions = list(recheck.coherent.contradictions(base))
        differing = list(recheck.events.differing_seals(base, seals))
    said = f"unlawful {breach.id} {breach.rule}: {breach.why}" if breach else ""
    texts = sorted(recheck.vault.moment_text(it.before) for it in seals)
    good = [it for it in texts if not any(line.startswith(it) for line in differing)]
    return Checked(last, said, contradictions, path, len(seals), differing, good[-1] if good else "", torn)


def _checked_sentences(checked: Checked, found: Sequence[Event]) -> Iterator[str]:
    yield f"By {recheck.WHO}:"
    yield "Tables: sound. They fit together, and each content that the vault holds has its digest."
    if checked.breach:
        yield f"Rules: {checked.breach}. No commands of the vault can have made this history."
    else:
        yield (
            "Rules: lawful. Each lock and each removal keeps the rules, and its caller had the right to it, "
            "but that a retention that a version came with may be a default."
        )
    for it in checked.contradictions[:MOST_CONTRADICTIONS]:
        yield f"Together: not coherent. {it[0].upper()}{it[1:]}."
    if not checked.contradictions:
        yield "Together: coherent. Histories agree with each other, and with callers, buckets, moves and deliveries."
    if checked.seals is None:
        yield "Seals: none were given (--seals FILE), so nothing from before is compared."
        return
    for it in checked.differing:
        yield f"Seals: {checked.seals} differs: {it}"
    for it in checked.torn:
        yield f"Seals: {checked.seals}, {it}"
    if not checked.count:
        yield f"Seals: {checked.seals} has no seal that could be compared."
    elif not checked.differing:
        yield f"Seals: {evidence.counted(checked.count, 'seal')} of {checked.seals}, and as sealed."
    if checked.sealed:
        before = sum(it.moment < checked.sealed for it in found)
        yield (
            f"The last seal that comes out of the vault again is of {checked.sealed}: {before} of the "
            f"{evidence.counted(len(found), 'event')} above are before it."
        )


def _shown_sentences(checked: Checked) -> Iterator[str]:
    if not checked.is_good:
        yield "The checks above found what speaks against this history: it shows nothing until that is explained."
        return
    yield (
        "That the file has this history of the version; that its tables fit together; and that each lock and each "
        "removal in it keeps the rules and was made by a caller who had the right to it, as the file has callers; a "
        "retention that a version came with may be a default."
    )
    if checked.sealed:
        yield (
            f"That what is dated before {checked.sealed} is what it was as the seal of that moment was taken: if the "
            "seals come from somebody who isn't the office, and had them then."
        )


def _unshown_sentences(checked: Checked) -> Iterator[str]:
    yield from UNSHOWN
    if checked.sealed:
        yield f"Whether what is dated {checked.sealed} or later was altered since: no seal is of it."
    else:
        yield "Whether somebody who may write to the file altered the history within the rules: no seal is of it."


# ---- the page


def _people(file: Path, found: Sequence[Event], notes: noted.Noted) -> list[reading.Row]:
    names = {it.by for it in found if it.by and not it.who.startswith("rule ")}
    rows = [it for it in reading.query(file, "callers") if it["caller"] in names]
    return [{**it, "person": notes.persons(found, it["caller"])} for it in rows]


def parts_of(engine: Engine, found: Sequence[Event], at: str, checked: Checked) -> list[Part]:
    """The parts of the page of a version, for the moment that is asked about."""
    document = {name: value for name, value in document_of(found).items() if value != ""}
    document["vault"] = f"{engine.desk.file}, whose last change is of {checked.last}"
    document["page"] = f"made by vaultdesk {__version__}, which only reads the file"
    guards = list(guard_sentences(found, events.guards_at(found, at)))
    if at > checked.last:
        guards.append(f"The vault's last change is of {checked.last}: this is so if nothing was changed after it.")
    notes = noted.of(engine.tables)
    people = ("caller", *(["person"] if notes.people else []), "department", "state", "rights")
    life = [{**row, "who": notes.who(row["who"], row["moment"])} for row in life_of(found)]
    facts = [dict(zip(WHAT, it, strict=True)) for it in notes.of_version(found).items()]
    document |= {"office": notes.office} if notes.office else {}
    return [
        Part("document", "The document", (), WHAT, [dict(zip(WHAT, it, strict=True)) for it in document.items()]),
        *([Part("facts", "What the office noted of it", (), WHAT, facts)] if facts else []),
        Part("life", "What happened to it", (), ("moment", "who", "what"), life),
        Part("guarded", f"What guarded it at {at}", guards),
        Part("people", "Who they are, as the file has it", (), people, _people(engine.tables, found, notes)),
        Part("checked", "What was checked", list(_checked_sentences(checked, found))),
        Part("shows", "What this shows", list(_shown_sentences(checked))),
        Part("shows_not", "What this doesn't show", list(_unshown_sentences(checked))),
    ]


def page_of(engine: Engine, version: int, seals: str | None = None) -> tuple[str, list[Part], Checked]:
    """The moment that is asked about, the parts of the page of a version, and what was found as the vault was audited.

    `DeskError` where the vault never had that version, or the seals can't be read."""
    at = engine.at or moments.now()
    found = events.in_tables(engine.tables, version)
    checked = _checked(engine, seals)
    return at, parts_of(engine, found, at, checked), checked


def answer(engine: Engine, words: argparse.Namespace) -> None:
    """Prints the page of a version, or writes it as HTML or PDF/A."""
    at = engine.at or moments.now()
    found = events.in_tables(engine.tables, words.number)
    checked = _checked(engine, words.seals)
    parts, name = parts_of(engine, found, at, checked), engine.desk.file.name
    wipes = wiped.of(engine.desk.file, engine.tables)
    when = wipes.when(words.number, found[-1].moment) if found[-1].event == "removed" else ""
    page = Page(parts, found, name, at, checked.is_good, engine.desk.asker, when)
    is_written = paper.write(words, as_html(page))
    if words.json:
        print_json(as_json(page))
    elif not is_written:
        print(as_text(page), end="")
    if not checked.is_good:
        raise DeskError(f"the checks found what speaks against this history: {checked.against[0]}")


def add(commands: argparse._SubParsersAction[argparse.ArgumentParser], common: argparse.ArgumentParser) -> None:
    """Adds the subcommand to the desk's words."""
    what = "a page for a court: one version's life, what guarded it at a moment (--at), and what that shows"
    example = "Example: vaultdesk answer 17 --at 2024-09-01 --seals deposited/records.seals --html answer.html"
    it = commands.add_parser("answer", parents=[common], help=what, epilog=example)
    it.add_argument("number", type=number, metavar="N", help="the version's number, as find and ls print it")
    it.add_argument("--seals", metavar="FILE", help="seals to check (default: NAME.seals beside NAME.vault, if there)")
    paper.add(it)
    it.set_defaults(run=answer)
