"""What a bucket does by itself: its default retention, and its lifecycle rules."""

from __future__ import annotations

import argparse
from collections.abc import Iterator, Sequence
from typing import Any

from vaultdesk import limits, moments, reading
from vaultdesk.asking import add_yes, confirm
from vaultdesk.defaults import default_text
from vaultdesk.engine import Engine
from vaultdesk.errors import DeskError, UsageError
from vaultdesk.forecast import COLUMNS as FORESEEN
from vaultdesk.forecast import Rule, foreseen, rules_of, set_rules
from vaultdesk.output import print_done, print_json, print_table, say
from vaultdesk.spelling import nearest, whole
from vaultdesk.wiped import LEFT

COLUMNS = ("id", "enabled", "prefix", "above", "below", "expires", "noncurrent", "keeps", "lone markers")


def _look_period(engine: Engine, words: argparse.Namespace) -> None:
    """`UsageError` where the settings have other limits for the bucket; asks before a default that can't be undone for
    what comes meanwhile."""
    count, unit = (words.days, "day") if words.years is None else (words.years, "year")
    period, now = limits.Period(count, unit), engine.at or moments.now()
    limits.look(engine.desk.limits, words.bucket, period.after(now), now)
    if words.mode == "COMPLIANCE" or moments.is_far(period.after(now), now):
        who = "anybody" if words.mode == "COMPLIANCE" else "whoever has no right to bypass"
        confirm(words, f"what comes into {words.bucket} from now on can't be removed by {who} for {period}")


def _look_none(engine: Engine, words: argparse.Namespace) -> None:
    """`UsageError` where the settings have a shortest retention for the bucket."""
    why = limits.why_not_kept(engine.desk.limits, words.bucket, None, engine.at or moments.now())
    if why:
        raise UsageError(f"without a default, {why}: give --years or --days; nothing was changed")


def default(engine: Engine, words: argparse.Namespace) -> None:
    """Sets, clears or prints the retention that later versions of a bucket get."""
    if words.none:
        _look_none(engine, words)
        engine.ask("set-default", bucket=words.bucket)
    elif words.years is not None or words.days is not None:
        _look_period(engine, words)
        engine.ask("set-default", bucket=words.bucket, mode=words.mode, days=words.days, years=words.years)
    found = engine.ask("get-default", bucket=words.bucket)["default"]
    if words.json:
        print_json(found)
    else:
        print(default_text(found))


def rule_row(rule: Rule) -> dict[str, Any]:
    """A lifecycle rule as a row for people."""
    expires = rule.get("Expiration", {})
    older = rule.get("NoncurrentVersionExpiration", {})
    return {
        "id": rule["ID"],
        "enabled": "yes" if rule["Status"] == "Enabled" else "no",
        "prefix": rule.get("Prefix", ""),
        "above": rule.get("ObjectSizeGreaterThan", ""),
        "below": rule.get("ObjectSizeLessThan", ""),
        "expires": f"after {expires['Days']} days" if "Days" in expires else "",
        "noncurrent": f"after {older['NoncurrentDays']} days" if older else "",
        "keeps": older.get("NewerNoncurrentVersions", ""),
        "lone markers": "yes" if expires.get("ExpiredObjectDeleteMarker") else "",
    }


def rule_of(words: argparse.Namespace) -> Rule:
    """The lifecycle rule that the words spell. `UsageError` where they spell no action."""
    if words.days is None and words.noncurrent_days is None and not words.lone_markers:
        raise UsageError("a rule does something: give --days, --noncurrent-days or --lone-markers")
    if words.days is not None and words.lone_markers:
        raise UsageError("--days and --lone-markers don't go together in one rule")
    rule: Rule = {"ID": words.id, "Status": "Disabled" if words.disabled else "Enabled", "Prefix": words.prefix}
    if words.above is not None:
        rule["ObjectSizeGreaterThan"] = words.above
    if words.below is not None:
        rule["ObjectSizeLessThan"] = words.below
    if words.days is not None:
        rule["Expiration"] = {"Days": words.days}
    if words.lone_markers:
        rule["Expiration"] = {"ExpiredObjectDeleteMarker": True}
    if words.noncurrent_days is not None:
        older = {"NoncurrentDays": words.noncurrent_days}
        if words.keep is not None:
            older["NewerNoncurrentVersions"] = words.keep
        rule["NoncurrentVersionExpiration"] = older
    elif words.keep is not None:
        raise UsageError("--keep goes with --noncurrent-days")
    return rule


def list_rules(engine: Engine, words: argparse.Namespace) -> None:
    """Prints the rules of a bucket in their order."""
    found = rules_of(engine, words.bucket)
    if words.json:
        print_json(found)
    else:
        print_table([rule_row(it) for it in found], COLUMNS, as_json=False)


def add_rule(engine: Engine, words: argparse.Namespace) -> None:
    """Adds a rule after those that are there; the others stay as they are."""
    rules = rules_of(engine, words.bucket)
    if any(it["ID"] == words.id for it in rules):
        raise DeskError(f"the bucket has a rule {words.id!r} already: take another name, or remove that one first")
    rule = rule_of(words)
    set_rules(engine, words.bucket, [*rules, rule])
    print_done(words.json, bucket=words.bucket, rule=rule, done="added")


def remove_rule(engine: Engine, words: argparse.Namespace) -> None:
    """Removes a rule; the others stay as they are."""
    if "id" not in words:
        raise UsageError("which rule? give its name: vaultdesk rules list BUCKET has the names")
    rules = rules_of(engine, words.bucket)
    left = [it for it in rules if it["ID"] != words.id]
    if len(left) == len(rules):
        there = ", ".join(str(it["ID"]) for it in rules)
        why = f"its rules are {there}" if there else "it has none, so nothing is to be removed"
        raise DeskError(f"the bucket has no rule {words.id!r}: {why}")
    set_rules(engine, words.bucket, left)
    print_done(words.json, bucket=words.bucket, rule=words.id, done="removed")


def try_rules(engine: Engine, words: argparse.Namespace) -> None:
    """Prints what the rules of a bucket do night by night, with one rule more where its words are given."""
    more = [rule_of(words)] if words.id else []
    rows, _ = foreseen(engine, [words.bucket], moments.read(words.until), more)
    print_table(rows, FORESEEN, words.json)


def _carried_out(engine: Engine, buckets: Sequence[str]) -> Iterator[dict[str, Any]]:
    """Carries out the rules of each bucket, and says what they did."""
    for it in buckets:
        done = engine.ask("run", bucket=it)
        say(f"{it}: {done['marked']} marked, {done['removed']} removed, {done['lone']} lone markers")
        yield {"bucket": it, **done}


def _why_no_rules(engine: Engine, department: str) -> str:
    """Why a department's buckets have no rules, and what to do."""
    owner = reading.rows(engine.tables, "SELECT dept FROM buckets WHERE name = ?", (department,))
    if owner:
        return f"{department!r} is a bucket, of the department {owner[0][0]}: give vaultdesk expire {owner[0][0]}"
    there = [str(it) for (it,) in reading.rows(engine.tables, "SELECT name FROM departments")]
    if department not in there:
        guess = nearest(department, there) or ": vaultdesk departments lists them"
        return f"the vault has no department {department!r}{guess}"
    return f"no bucket of {department!r} has rules: vaultdesk rules add gives it some"


def expire(engine: Engine, words: argparse.Namespace) -> None:
    """Says what the rules of a department's buckets will do, asks, and carries them out."""
    statement = "SELECT DISTINCT bucket FROM rules JOIN buckets ON bucket = name WHERE dept = ? ORDER BY bucket"
    buckets = [str(it) for (it,) in reading.rows(engine.tables, statement, (words.department,))]
    if not buckets:
        raise DeskError(_why_no_rules(engine, words.department))
    until = moments.read(words.until) if words.until else engine.at or moments.now()
    (rows, kept), done = foreseen(engine, buckets, until), list[dict[str, Any]]()
    if not words.json:
        print_table([*rows, *kept], FORESEEN, as_json=False)
    if not rows:
        say(f"nothing is due up to {until}")
    try:
        if rows and not words.dry_run:
            confirm(words, f"the rules of {len(buckets)} buckets are carried out as of this moment")
            done += _carried_out(engine, buckets)
            if not words.json and any(it["removed"] for it in done):
                print(LEFT)
    finally:
        if words.json:
            print_json({"foreseen": rows, "kept": kept, "done": done})


def _add_rule_words(it: argparse.ArgumentParser, id_needed: bool) -> None:
    it.add_argument("--id", required=id_needed, help="the rule's name")
    it.add_argument("--prefix", default="", help="for keys that begin so")
    it.add_argument("--days", type=whole(0), metavar="N", help="mark the current version N days after its admission")
    older = "remove older versions N days after the next one"
    it.add_argument("--noncurrent-days", type=whole(0), metavar="N", help=older)
    it.add_argument("--keep", type=whole(0), metavar="N", help="with --noncurrent-days: keep the newest N of those")
    it.add_argument("--lone-markers", action="store_true", help="remove delete markers below which nothing is held")
    it.add_argument("--above", type=whole(0), metavar="BYTES", help="for entries of more bytes")
    it.add_argument("--below", type=whole(0), metavar="BYTES", help="for entries of fewer bytes")
    it.add_argument("--disabled", action="store_true", help="no run carries it out")


def _add_rules(commands: argparse._SubParsersAction[argparse.ArgumentParser], common: argparse.ArgumentParser) -> None:
    rules = commands.add_parser("rules", help="lifecycle rules of a bucket: list, add, remove, try")
    kinds = rules.add_subparsers(dest="kind", required=True, metavar="KIND")
    it = kinds.add_parser("list", parents=[common], help="print them", epilog="Example: vaultdesk rules list drafts")
    it.add_argument("bucket")
    it.set_defaults(run=list_rules)

    example = "Example: vaultdesk rules add drafts --id old --prefix 2020/ --days 365 --noncurrent-days 30"
    it = kinds.add_parser("add", parents=[common], help="add one, after the others", epilog=example)
    it.add_argument("bucket")
    _add_rule_words(it, id_needed=True)
    it.set_defaults(run=add_rule)

    example = "Example: vaultdesk rules remove drafts old"
    it = kinds.add_parser("remove", parents=[common], help="remove one", epilog=example)
    it.add_argument("bucket")
    it.add_argument("id", nargs="?", default=argparse.SUPPRESS, help="the rule's name")
    it.add_argument("--id", default=argparse.SUPPRESS, help="the same, as rules add has it")
    it.set_defaults(run=remove_rule)

    example = "Example: vaultdesk rules try drafts --until 2026-02-01 --id old --days 365 --noncurrent-days 30"
    what = "what goes, and when, on a copy of the vault: by the rules as they are, or with one more"
    it = kinds.add_parser("try", parents=[common], help=what, epilog=example)
    it.add_argument("bucket")
    it.add_argument("--until", metavar="DATE", required=True, help="the last night that is tried")
    _add_rule_words(it, id_needed=False)
    it.set_defaults(run=try_rules)


def add(commands: argparse._SubParsersAction[argparse.ArgumentParser], common: argparse.ArgumentParser) -> None:
    """Adds the subcommands to the desk's words."""
    example = "Example: vaultdesk default letters --years 10 --mode COMPLIANCE"
    what = "set, clear or print a bucket's default retention"
    it = commands.add_parser("default", parents=[common], help=what, epilog=example)
    it.add_argument("bucket")
    period = it.add_mutually_exclusive_group()
    period.add_argument("--years", type=whole(0), metavar="N")
    period.add_argument("--days", type=whole(0), metavar="N")
    period.add_argument("--none", action="store_true", help="no default from now on")
    it.add_argument("--mode", choices=("GOVERNANCE", "COMPLIANCE"), default="GOVERNANCE", help="its mode (GOVERNANCE)")
    it.add_argument("--yes", action="store_true", help="don't ask before COMPLIANCE")
    it.set_defaults(run=default)

    _add_rules(commands, common)

    example = "Example: vaultdesk expire records --until 2026-02-01"
    what = "carry out the rules of a department's buckets, after saying what goes and when"
    it = commands.add_parser("expire", parents=[common], help=what, epilog=example)
    it.add_argument("department")
    it.add_argument("--until", metavar="DATE", help="say what goes up to then (default: tonight)")
    add_yes(it)
    it.set_defaults(run=expire)
