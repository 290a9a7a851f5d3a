"""Retentions, legal holds, defaults and rules over the gateway: each refusal is the engine's."""

from __future__ import annotations

from tests.s3_office import BEA, GatewayTest

END = "2034-01-01T00:00:00Z"
LATER, EARLIER = "2035-01-01T00:00:00Z", "2030-01-01T00:00:00Z"
BYPASS = {"x-amz-bypass-governance-retention": "true"}


def retention(mode: str, until: str) -> bytes:
    """The document of a retention."""
    return f"<Retention><Mode>{mode}</Mode><RetainUntilDate>{until}</RetainUntilDate></Retention>".encode()


def default(inner: str) -> bytes:
    """The document of a default retention."""
    text = f"<Rule><DefaultRetention>{inner}</DefaultRetention></Rule>" if inner else ""
    enabled = "<ObjectLockEnabled>Enabled</ObjectLockEnabled>"
    return f"<ObjectLockConfiguration>{enabled}{text}</ObjectLockConfiguration>".encode()


class Locks(GatewayTest):
    def locked(self, mode: str, until: str = END, key: str = "a") -> None:
        headers = {"x-amz-object-lock-mode": mode, "x-amz-object-lock-retain-until-date": until}
        self.done("PUT", f"/docs/{key}", b"hello", headers)

    def refused_so(self, reason: str, method: str, target: str, body: bytes = b"",
                   headers: dict[str, str] | None = None) -> None:
        """The engine refuses it for that reason, and the version is as it was."""
        before = self.door.ask("ann", "get", bucket="docs", key="a").value
        reply = self.ask(method, target, body, headers)
        self.refused("AccessDenied", 403, reply)
        self.assertTrue(reply.all("Message")[0].startswith(f"{reason}: "), reply.body)
        self.assertEqual(self.door.ask("ann", "get", bucket="docs", key="a").value, before)

    def test_compliance(self) -> None:
        self.locked("COMPLIANCE")
        got = self.done("GET", "/docs/a")
        self.assertEqual(got.headers["x-amz-object-lock-mode"], "COMPLIANCE")
        self.assertEqual(got.headers["x-amz-object-lock-retain-until-date"], END)
        for headers in (None, BYPASS):
            self.refused_so("retention-compliance", "DELETE", "/docs/a?versionId=1", headers=headers)
            for document in (retention("COMPLIANCE", EARLIER), retention("GOVERNANCE", LATER)):
                self.refused_so("retention-compliance", "PUT", "/docs/a?retention", document, headers)
        self.done("PUT", "/docs/a?retention&versionId=1", retention("COMPLIANCE", LATER))
        found = self.done("GET", "/docs/a?retention")
        self.assertEqual((found.all("Mode"), found.all("RetainUntilDate")), (["COMPLIANCE"], [LATER]))

    def test_governance_and_its_bypass(self) -> None:
        self.locked("GOVERNANCE")
        self.refused_so("retention-governance", "DELETE", "/docs/a?versionId=1")
        self.refused_so("retention-governance", "PUT", "/docs/a?retention", retention("GOVERNANCE", EARLIER))
        without = self.ask("DELETE", "/docs/a?versionId=1", headers=BYPASS, who=BEA)
        self.refused("AccessDenied", 403, without)
        self.done("PUT", "/docs/a?retention", retention("GOVERNANCE", EARLIER), BYPASS)
        self.refused("InvalidArgument", 400, self.ask("DELETE", "/docs/a?versionId=1", headers={**BYPASS, **{
            "x-amz-bypass-governance-retention": "yes"}}))
        many = b"<Delete><Object><Key>a</Key><VersionId>1</VersionId></Object></Delete>"
        self.assertEqual(self.done("POST", "/docs?delete", many).all("Code"), ["AccessDenied"])
        self.assertEqual(len(self.entries()), 1)
        self.assertEqual(self.done("POST", "/docs?delete", many, BYPASS).all("Code"), [])
        self.assertEqual(self.entries(), [])

    def test_a_legal_hold(self) -> None:
        self.done("PUT", "/docs/a", b"hello")
        self.assertEqual(self.done("GET", "/docs/a?legal-hold").all("Status"), ["OFF"])
        hold = b'<LegalHold xmlns="http://s3.amazonaws.com/doc/2006-03-01/"><Status>ON</Status></LegalHold>'
        self.refused("AccessDenied", 403, self.ask("PUT", "/docs/a?legal-hold", hold, who=BEA))
        more = self.ask("PUT", "/docs/a?legal-hold", hold.replace(b"</LegalHold>", b"<More/></LegalHold>"))
        self.refused("NotImplemented", 501, more)
        self.assertEqual(self.done("GET", "/docs/a?legal-hold").all("Status"), ["OFF"])
        self.done("PUT", "/docs/a?legal-hold", hold)
        self.assertEqual(self.done("GET", "/docs/a?legal-hold&versionId=1").all("Status"), ["ON"])
        self.refused_so("legal-hold", "DELETE", "/docs/a?versionId=1", headers=BYPASS)
        self.done("PUT", "/docs/a?legal-hold", hold.replace(b"ON", b"OFF"))
        self.done("DELETE", "/docs/a?versionId=1")
        self.assertEqual(self.entries(), [])

    def test_no_change_has_a_condition_or_another_calls_header(self) -> None:
        self.locked("GOVERNANCE")
        hold = b"<LegalHold><Status>ON</Status></LegalHold>"
        changes = (
            ("PUT", "/docs/a?retention", retention("GOVERNANCE", LATER)), ("PUT", "/docs/a?legal-hold", hold),
            ("PUT", "/docs?object-lock", default("<Mode>GOVERNANCE</Mode><Days>1</Days>")),
            ("PUT", "/docs?lifecycle", RULES), ("DELETE", "/docs?lifecycle", b""), ("DELETE", "/docs/a", b""),
            ("POST", "/docs?delete", b"<Delete><Object><Key>a</Key></Object></Delete>"),
        )  # fmt: skip
        before = self.door.ask("ann", "head", bucket="docs", key="a").value
        for method, target, body in changes:
            for headers in ({"if-match": "*"}, {"if-unmodified-since": "Mon, 15 Jan 2024 11:00:00 GMT"},
                            {"x-amz-object-lock-legal-hold": "OFF"}, {"x-amz-copy-source": "/docs/a"}):
                with self.subTest(target, headers=headers):
                    self.refused("InvalidRequest", 400, self.ask(method, target, body, headers))
        self.assertEqual(self.door.ask("ann", "head", bucket="docs", key="a").value, before)
        self.assertEqual(self.done("GET", "/docs?object-lock").all("Mode"), [])
        self.refused("NoSuchLifecycleConfiguration", 404, self.ask("GET", "/docs?lifecycle"))

    def test_locks_are_those_of_the_version_that_is_named(self) -> None:
        self.done("PUT", "/docs/a", b"hello")
        self.done("PUT", "/docs/a", b"other")
        self.done("PUT", "/docs/a?legal-hold&versionId=1", b"<LegalHold><Status>ON</Status></LegalHold>")
        self.done("PUT", "/docs/a?retention&versionId=1", retention("GOVERNANCE", END))
        told = [self.door.ask("ann", "head", bucket="docs", key="a", id=it).value for it in (1, 2)]
        self.assertEqual([it["hold"] for it in told], ["ON", "OFF"])
        self.assertEqual([it["retention"] for it in told], [{"mode": "GOVERNANCE", "until": END}, None])
        for version, hold, modes in (("1", "ON", ["GOVERNANCE"]), ("2", "OFF", [])):
            found = self.done("GET", f"/docs/a?legal-hold&versionId={version}")
            self.assertEqual(found.all("Status"), [hold])
            self.assertEqual(self.ask("GET", f"/docs/a?retention&versionId={version}").all("Mode"), modes)
            head = self.done("HEAD", f"/docs/a?versionId={version}")
            self.assertEqual(head.headers["x-amz-object-lock-legal-hold"], hold)

    def test_parts_of_a_second_are_rounded_up(self) -> None:
        for number, (given, kept) in enumerate((
            ("2034-01-01T00:00:00.000Z", END), ("2034-01-01T00:00:00.000001Z", "2034-01-01T00:00:01Z"),
            ("2033-12-31T23:59:59.999Z", END), ("2034-01-01T01:00:00.5+01:00", "2034-01-01T00:00:01Z"),
            ("2034-01-01T01:00:00+01:00", END),
        )):  # fmt: skip
            self.locked("COMPLIANCE", given, f"k{number}")
            told = self.door.ask("ann", "head", bucket="docs", key=f"k{number}").value
            self.assertEqual(told["retention"]["until"], kept, given)

    def test_no_retention_and_none_that_is_empty(self) -> None:
        self.done("PUT", "/docs/a", b"hello")
        self.refused("NoSuchObjectLockConfiguration", 404, self.ask("GET", "/docs/a?retention"))
        for body, code in (
            (b"<Retention/>", "InvalidRequest"), (b"<Retention><Mode>GOVERNANCE</Mode></Retention>", "InvalidRequest"),
            (retention("governance", END), "InvalidArgument"),
            (retention("GOVERNANCE", "2034-01-01"), "InvalidArgument"),
            (retention("GOVERNANCE", "2020-01-01T00:00:00Z"), "InvalidArgument"), (b"<Retention>", "MalformedXML"),
            (retention("GOVERNANCE", END).replace(b"</Retention>", b"<More/></Retention>"), "NotImplemented"),
            (retention("GOVERNANCE", END).replace(b"</Mode>", b"<More/></Mode>"), "MalformedXML"),
            (retention("GOVERNANCE", END).replace(b"<Mode>", b"<Mode>COMPLIANCE</Mode><Mode>"), "MalformedXML"),
        ):  # fmt: skip
            self.assertEqual(self.ask("PUT", "/docs/a?retention", body).code, code, body)
        self.refused("NoSuchObjectLockConfiguration", 404, self.ask("GET", "/docs/a?retention"))

    def test_a_default(self) -> None:
        found = self.done("GET", "/docs?object-lock")
        self.assertEqual((found.all("ObjectLockEnabled"), found.all("Mode")), (["Enabled"], []))
        self.done("PUT", "/docs?object-lock", default("<Mode>COMPLIANCE</Mode><Years>2</Years>"))
        found = self.done("GET", "/docs?object-lock")
        self.assertEqual((found.all("Mode"), found.all("Years")), (["COMPLIANCE"], ["2"]))
        self.done("PUT", "/docs/a", b"hello")
        self.assertEqual(self.done("GET", "/docs/a?retention").all("RetainUntilDate"), ["2026-01-15T10:00:00Z"])
        for inner, code in (
            ("<Mode>COMPLIANCE</Mode>", "InvalidArgument"), ("<Days>3</Days>", "MalformedXML"),
            ("<Mode>COMPLIANCE</Mode><Days>3</Days><Years>1</Years>", "InvalidArgument"),
            ("<Mode>COMPLIANCE</Mode><Days>0</Days>", "InvalidArgument"),
            ("<Mode>COMPLIANCE</Mode><Days>x</Days>", "InvalidArgument"),
        ):  # fmt: skip
            self.assertEqual(self.ask("PUT", "/docs?object-lock", default(inner)).code, code, inner)
        self.assertEqual(self.done("GET", "/docs?object-lock").all("Years"), ["2"])
        three = default("<Mode>GOVERNANCE</Mode><Days>3</Days>")
        self.done("PUT", "/docs?object-lock", three)
        found = self.done("GET", "/docs?object-lock")
        self.assertEqual((found.all("Mode"), found.all("Days"), found.all("Years")), (["GOVERNANCE"], ["3"], []))
        for old, new, code in (
            (b">Enabled<", b">Disabled<", "MalformedXML"),
            (b"<ObjectLockEnabled>Enabled</ObjectLockEnabled>", b"", "MalformedXML"),
            (b"<DefaultRetention><Mode>GOVERNANCE</Mode><Days>3</Days></DefaultRetention>", b"", "MalformedXML"),
            (b"<Rule>", b"<Rule><More/>", "NotImplemented"), (b"<Rule>", b"<More/><Rule>", "NotImplemented"),
            (b"<Days>", b"<More>1</More><Days>", "NotImplemented"),
        ):  # fmt: skip
            self.assertEqual(self.ask("PUT", "/docs?object-lock", three.replace(old, new)).code, code, new)
        cleared = default("").replace(b">Enabled<", b">Disabled<")
        self.assertEqual(self.ask("PUT", "/docs?object-lock", cleared).code, "MalformedXML")
        self.assertEqual(self.done("GET", "/docs?object-lock").all("Days"), ["3"])
        self.done("PUT", "/docs?object-lock", default(""))
        self.assertEqual(self.done("GET", "/docs?object-lock").all("Mode"), [])
        self.refused("AccessDenied", 403, self.ask("PUT", "/docs?object-lock", default(""), who=BEA))


FILTER = b"<Filter><And><Prefix>2024/</Prefix><ObjectSizeGreaterThan>3</ObjectSizeGreaterThan></And></Filter>"
RULES = (
    b"<LifecycleConfiguration><Rule>" + FILTER + b"<Status>Enabled</Status><Expiration><Days>30</Days></Expiration>"
    b"</Rule><Rule><ID>old</ID><Prefix/><Status>Disabled</Status><NoncurrentVersionExpiration><NoncurrentDays>7"
    b"</NoncurrentDays><NewerNoncurrentVersions>2</NewerNoncurrentVersions></NoncurrentVersionExpiration></Rule>"
    b"</LifecycleConfiguration>"
)


class Lifecycle(GatewayTest):
    def test_rules_are_the_engines(self) -> None:
        self.refused("NoSuchLifecycleConfiguration", 404, self.ask("GET", "/docs?lifecycle"))
        self.done("PUT", "/docs?lifecycle", RULES)
        wanted = [
            {"ID": "rule-1", "Prefix": "2024/", "Status": "Enabled", "ObjectSizeGreaterThan": 3,
             "Expiration": {"Days": 30}},
            {"ID": "old", "Prefix": "", "Status": "Disabled",
             "NoncurrentVersionExpiration": {"NoncurrentDays": 7, "NewerNoncurrentVersions": 2}},
        ]  # fmt: skip
        self.assertEqual(self.door.ask("ann", "get-rules", bucket="docs").value["rules"], wanted)
        told = self.done("GET", "/docs?lifecycle").body
        self.done("PUT", "/docs?lifecycle", told)
        self.assertEqual(self.door.ask("ann", "get-rules", bucket="docs").value["rules"], wanted)
        self.refused("AccessDenied", 403, self.ask("PUT", "/docs?lifecycle", RULES, who=BEA))
        self.assertEqual(self.done("DELETE", "/docs?lifecycle").status, 204)
        self.refused("NoSuchLifecycleConfiguration", 404, self.ask("GET", "/docs?lifecycle"))

    def test_a_marker_that_isnt_to_go_stays(self) -> None:
        for given, kept in ((b"false", []), (b"true", ["true"])):
            marker = b"<ExpiredObjectDeleteMarker>" + given + b"</ExpiredObjectDeleteMarker>"
            rules = RULES.replace(b"<NoncurrentV", b"<Expiration>" + marker + b"</Expiration><NoncurrentV")
            self.ask("PUT", "/docs?lifecycle", rules)
            told = self.ask("GET", "/docs?lifecycle").all("ExpiredObjectDeleteMarker")
            self.assertEqual([it for it in told if it != "false"], kept)

    def test_a_rule_is_carried_out(self) -> None:
        self.done("PUT", "/docs/2024/a", b"hello")
        self.done("PUT", "/docs?lifecycle", RULES)
        self.stop()
        self.assertEqual(self.lines({"do": "run", "bucket": "docs"}, at="2024-03-01T00:00:00Z")[0]["ok"]["marked"], 1)
        self.at = "2024-03-01T00:00:00Z"
        self.start()
        self.assertEqual(self.done("GET", "/docs?list-type=2").all("Key"), [])

    def test_what_the_vault_hasnt_is_refused(self) -> None:
        for old, new, code in (
            (b"<Days>30</Days>", b"<Date>2030-01-01T00:00:00Z</Date>", "NotImplemented"),
            (b"<And>", b"<And><Tag><Key>a</Key><Value>b</Value></Tag>", "NotImplemented"),
            (b"<Expiration>", b"<Transition><Days>1</Days></Transition><Expiration>", "NotImplemented"),
            (b"<Expiration>", b"<AbortIncompleteMultipartUpload/><Expiration>", "NotImplemented"),
            (b"<Status>Enabled</Status>", b"", "MalformedXML"),
            (b"<Status>Enabled</Status>", b"<Prefix>a/</Prefix><Status>Enabled</Status>", "MalformedXML"),
            (b"Enabled", b"On", "InvalidArgument"),
            (b"<Days>30</Days>", b"<Days>0</Days>", "InvalidArgument"),
            (b"<Days>30</Days>", b"<ExpiredObjectDeleteMarker>yes</ExpiredObjectDeleteMarker>", "MalformedXML"),
            (b"<ID>old</ID>", b"<ID>rule-1</ID>", "InvalidArgument"),
            (b"<NewerNoncurrentVersions>", b"<More/><NewerNoncurrentVersions>", "NotImplemented"),
            (b"<Rule><ID>", b"<More/><Rule><ID>", "NotImplemented"),
            (b"</And>", b"</And><Prefix>2025/</Prefix>", "NotImplemented"),
            (FILTER, b"<Filter><Tag><Key>a</Key><Value>b</Value></Tag></Filter>", "NotImplemented"),
        ):  # fmt: skip
            self.assertEqual(self.ask("PUT", "/docs?lifecycle", RULES.replace(old, new)).code, code, new)
        self.refused("NoSuchLifecycleConfiguration", 404, self.ask("GET", "/docs?lifecycle"))
