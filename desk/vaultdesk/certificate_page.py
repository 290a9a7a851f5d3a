"""Certificates of destruction as an office signs them, a sheet for each: the text itself is the engine's."""

from __future__ import annotations

import html
from collections.abc import Iterable, Mapping

from vaultdesk import paper

TITLE, ALL = "Certificate of destruction", "Certificates of destruction"
CAUSES = {
    "request": "as {} asked",
    "bypass": "as {} asked, who bypassed a retention in GOVERNANCE",
    "rule": "by the lifecycle rule \u201c{}\u201d",
}


def _members(text: str) -> Mapping[str, str]:
    """The members of a certificate, by the names before their colons."""
    return dict(line.split(": ", 1) for line in text.split("\n") if ": " in line)


def _certified(it: Mapping[str, str]) -> str:
    """What the office certifies, in a sentence."""
    cause, _, by = it["cause"].partition(" ")
    what = f"its vault removed version {it['version']} of the bucket {it['bucket']} on {paper.in_words(it['removed'])}"
    return f"{paper.office()} certifies that {what}, {CAUSES[cause].format(by)}, and that no command reads it again."


def _sheet(text: str, noted: str, wiped: str, asker: str | None) -> str:
    it = _members(text)
    number = it["version"]
    checks = paper.listed("How to check it", [
        f"Whoever has the document can compare it: `sha256sum FILE` has to print `{it['sha256']}`.",
        f"That no letter was altered: `head -n -1 certificate-{int(number):010}.txt | sha256sum` has to print the "
        "digest of the last line.",
        "That the office made it: the register of removals has it, and the vault makes it again, "
        f"`vaultdesk certificate {number}`.",
    ])  # fmt: skip
    of_bytes = paper.of_bytes("certificate", int(number), wiped)
    gone = paper.listed("What of its bytes is gone", [
        f"The vault removed this version; no command reads it again. {of_bytes}",
    ])  # fmt: skip
    certified = f"<p>{paper.text(_certified(it))}</p>\n<pre>{html.escape(text, quote=False)}</pre>\n"
    return f"<section>\n{paper.head(TITLE, asker)}{certified}{noted}{checks}{gone}{paper.signature()}</section>\n"


def page(certificates: Iterable[tuple[str, str, str]], asker: str | None) -> str:
    """The page of these certificates, as the engine has them, each with what the office noted of it as HTML, and when
    its version's bytes were wiped (empty where that isn't noted), issued by that caller."""
    return paper.page(ALL, "".join(_sheet(*it, asker) for it in certificates))
