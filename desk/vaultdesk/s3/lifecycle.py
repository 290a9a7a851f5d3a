"""The lifecycle rules of a bucket, in XML and as the engine has them."""

from __future__ import annotations

from typing import Any

from vaultdesk.s3 import xml
from vaultdesk.s3.asked import Asked, xml_answer
from vaultdesk.s3.request import Answer, number

SIZES = ("ObjectSizeGreaterThan", "ObjectSizeLessThan")
LATER = ("NoncurrentDays", "NewerNoncurrentVersions")
MOST = 16_000  # elements: a bucket has up to 1,000 rules, and a rule up to 14 of them


def _numbers(element: xml.Element, names: tuple[str, ...]) -> dict[str, int]:
    found = ((it, element.value(it)) for it in names)
    return {name: number(text, name) for name, text in found if text is not None}


def _filtered(rule: xml.Element) -> dict[str, Any]:
    """Which entries a rule is for: a prefix, and bounds of sizes. `Fault` where it names anything else, as tags."""
    place = rule.find("Filter")
    if place is None:
        return {"Prefix": rule.value("Prefix") or ""}
    if rule.find("Prefix"):
        raise xml.malformed("a Rule has a Filter or a Prefix")
    place.only("And", "Prefix", *SIZES)
    both = place.find("And")
    if both:
        place.only("And")
        both.only("Prefix", *SIZES)
        place = both
    return {"Prefix": place.value("Prefix") or "", **_numbers(place, SIZES)}


def _expiration(rule: xml.Element) -> dict[str, Any]:
    found = rule.find("Expiration")
    if found is None:
        return {}
    found.only("Days", "ExpiredObjectDeleteMarker")
    marker = found.value("ExpiredObjectDeleteMarker")
    if marker not in (None, "true", "false"):
        raise xml.malformed("ExpiredObjectDeleteMarker is true or false")
    lone = {} if marker is None else {"ExpiredObjectDeleteMarker": marker == "true"}
    return {"Expiration": {**_numbers(found, ("Days",)), **lone}}


def _rule(rule: xml.Element, place: int) -> dict[str, Any]:
    """A rule as the engine takes it. `Fault` where it has what the vault hasn't."""
    rule.only("ID", "Prefix", "Filter", "Status", "Expiration", "NoncurrentVersionExpiration")
    status = rule.value("Status")
    if status is None:
        raise xml.malformed("a Rule has a Status")
    name = rule.value("ID") or f"rule-{place}"
    made: dict[str, Any] = {"ID": name, "Status": status, **_filtered(rule), **_expiration(rule)}
    later = rule.find("NoncurrentVersionExpiration")
    if later is not None:
        later.only(*LATER)
        made["NoncurrentVersionExpiration"] = _numbers(later, LATER)
    return made


def put(asked: Asked) -> Answer:
    """Sets the rules of a bucket in the place of those that it has."""
    document = asked.document("LifecycleConfiguration", MOST)
    document.only("Rule")
    rules = [_rule(it, place) for place, it in enumerate(document.all("Rule"), start=1)]
    asked.ask("set-rules", bucket=asked.request.bucket, rules=rules)
    return Answer()


def _nodes(rule: dict[str, Any]) -> xml.Node:
    sizes: list[xml.Node] = [(it, rule[it]) for it in SIZES if it in rule]
    prefix: xml.Node = ("Prefix", rule["Prefix"])
    place: list[xml.Node] = [("And", [prefix, *sizes])] if sizes else [prefix]
    nodes: list[xml.Node] = [("ID", rule["ID"]), ("Filter", place), ("Status", rule["Status"])]
    for name in ("Expiration", "NoncurrentVersionExpiration"):
        if name in rule:
            nodes.append((name, list(rule[name].items())))
    return "Rule", nodes


def get(asked: Asked) -> Answer:
    """The rules of a bucket."""
    rules = asked.ask("get-rules", bucket=asked.request.bucket)["rules"]
    return xml_answer("LifecycleConfiguration", [_nodes(it) for it in rules])


def drop(asked: Asked) -> Answer:
    """Drops the rules of a bucket."""
    asked.ask("drop-rules", bucket=asked.request.bucket)
    return Answer(204)
