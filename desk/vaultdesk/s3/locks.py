"""Retentions, legal holds, and a bucket's default retention."""

from __future__ import annotations

from typing import Any

from vaultdesk.s3 import heads, xml
from vaultdesk.s3.asked import Asked, xml_answer
from vaultdesk.s3.faults import Fault
from vaultdesk.s3.request import Answer, number


def get_retention(asked: Asked) -> Answer:
    """The retention of a version."""
    found = asked.ask("get-retention", **asked.place, **asked.request.version)["retention"]
    if not found:
        raise Fault("NoSuchObjectLockConfiguration", "the version has no retention")
    return xml_answer("Retention", [("Mode", found["mode"]), ("RetainUntilDate", found["until"])])


def put_retention(asked: Asked) -> Answer:
    """Sets the retention of a version."""
    document = asked.document("Retention")
    document.only("Mode", "RetainUntilDate")
    mode, until = document.value("Mode"), document.value("RetainUntilDate")
    if mode is None or until is None:
        raise Fault("InvalidRequest", "a retention has a Mode and a RetainUntilDate, and an empty one lifts none")
    place: dict[str, Any] = {**asked.place, **asked.request.version, **asked.request.bypass}
    asked.ask("set-retention", mode=mode, until=heads.moment_of(until.strip()), **place)
    return Answer()


def get_hold(asked: Asked) -> Answer:
    """The legal hold of a version."""
    found = asked.ask("get-hold", **asked.place, **asked.request.version)
    return xml_answer("LegalHold", [("Status", found["hold"])])


def put_hold(asked: Asked) -> Answer:
    """Sets the legal hold of a version on or off."""
    document = asked.document("LegalHold")
    document.only("Status")
    status = document.value("Status")
    if status is None:
        raise xml.malformed("a LegalHold has a Status")
    asked.ask("set-hold", **asked.place, **asked.request.version, hold=status)
    return Answer()


def get_default(asked: Asked) -> Answer:
    """The default retention of a bucket."""
    found = asked.ask("get-default", bucket=asked.request.bucket)["default"]
    nodes: list[xml.Node] = [("ObjectLockEnabled", "Enabled")]
    if found:
        period: xml.Node = ("Days", found["days"]) if "days" in found else ("Years", found["years"])
        nodes.append(("Rule", [("DefaultRetention", [("Mode", found["mode"]), period])]))
    return xml_answer("ObjectLockConfiguration", nodes)


def put_default(asked: Asked) -> Answer:
    """Sets the default retention of a bucket, or clears it where there is no rule."""
    document = asked.document("ObjectLockConfiguration")
    document.only("ObjectLockEnabled", "Rule")
    if document.value("ObjectLockEnabled") != "Enabled":
        raise xml.malformed("ObjectLockEnabled is Enabled")
    members: dict[str, str | int] = {}
    rule = document.find("Rule")
    if rule:
        rule.only("DefaultRetention")
        default = rule.find("DefaultRetention")
        if default is None:
            raise xml.malformed("a Rule has a DefaultRetention")
        default.only("Mode", "Days", "Years")
        if default.value("Mode") is None:
            raise xml.malformed("a DefaultRetention has a Mode")
        for it in default.children:
            members[it.name.lower()] = it.text if it.name == "Mode" else number(it.text, it.name)
    asked.ask("set-default", bucket=asked.request.bucket, **members)
    return Answer()
