"""What is due, as a text and as a mail."""

from __future__ import annotations

import email
import email.policy
import json
import os
import time
from email.message import EmailMessage
from pathlib import Path
from typing import Any
from unittest import mock

from tests.machine import MachineTest
from vaultdesk import conf, last_done

NOW = "2026-03-01T09:00:00Z"
SENDMAIL = '#!/bin/sh\necho "$*" > "$MACHINE/sent"\ncat >> "$MACHINE/sent"\nexit "${SENDMAIL_STATUS:-0}"\n'


class DueTest(MachineTest):
    """A vault with units, with a night that was done and two copies; and a program that notes the mail it gets."""

    def setUp(self) -> None:
        super().setUp()
        program = self.machine / "bin" / "sendmail"
        program.write_text(SENDMAIL)
        program.chmod(0o755)
        caller = {"do": "add-caller", "as": "registrar", "caller": "bea", "dept": "records"}
        self.lines(
            {"do": "add-bucket", "as": "registrar", "bucket": "office", "dept": "records"},
            {**caller, "rights": ["put", "retain", "get", "list", "delete-version"]},
        )
        self.copies.mkdir()
        for day in (1, 2):
            (self.copies / f"records-2026020{day}T000000Z.vault").touch()
        seconds = time.mktime((2026, 3, 1, 0, 0, 0, 0, 0, 0))
        with mock.patch("time.time", return_value=seconds):
            last_done.note(self.file, "night")

    def due(self, *words: str, at: str = NOW) -> list[dict[str, Any]]:
        return list(json.loads(self.done("due", "--vault", "records", "--json", *words, at=at)))

    def whats(self, *words: str, at: str = NOW) -> list[str]:
        return [f"{it['count']} {it['what']}" for it in self.due(*words, at=at)]

    def put(self, key: str, until: str, **more: str) -> None:
        line = {"do": "put", "bucket": "docs", "key": key, "text": key, "mode": "GOVERNANCE", "until": until, **more}
        self.lines(line, at="2024-06-01T00:00:00Z")


class Due(DueTest):
    def test_where_nothing_is_due_nothing_is_printed_or_sent(self) -> None:
        self.put("a", "2026-04-01T00:00:00Z")
        for words in ((), ("--mail", "a@b.example"), ("--mail", "a@b.example", "--send")):
            done = self.desk("due", "--vault", "records", *words, at=NOW)
            self.assertEqual((done.status, done.out, done.err), (0, "", "nothing is due\n"))
        self.assertFalse((self.machine / "sent").exists())

    def test_ends_within_some_days_and_those_that_have_passed(self) -> None:
        for key, until in (("a", "2026-03-31T09:00:00Z"), ("b", "2026-03-31T09:00:01Z"), ("c", "2026-03-01T09:00:00Z")):
            self.put(key, until)
        ended = "1 documents of records whose retention has ended"
        self.assertEqual(self.whats(), ["1 retentions end within 30 days", ended])
        self.assertEqual(self.whats("--days", "31")[0], "2 retentions end within 31 days")

    def test_holds_that_are_older_than_a_year(self) -> None:
        self.put("a", "2030-01-01T00:00:00Z", hold="ON")
        self.assertEqual(self.whats(), ["1 legal holds are older than 365 days"])
        hold = {"do": "set-hold", "bucket": "docs", "key": "a", "id": 1}
        self.lines({**hold, "hold": "OFF"}, at="2025-03-02T00:00:00Z")
        self.lines({**hold, "hold": "ON"}, at="2025-03-02T00:00:00Z")
        self.assertEqual(self.whats(), [])

    def test_plans_that_wait(self) -> None:
        self.put("a", "2025-01-01T00:00:00Z")
        name = self.done("disposal", "plan", "records", "--yes", at="2026-02-01T00:00:00Z").strip()
        plans = [it for it in self.due() if it["what"].startswith("plans")]
        self.assertEqual(plans, [{"what": "plans of disposal wait for an approval", "count": 1, "how": name}])
        self.done("approve", name, "--yes", "--as", "bea", at="2026-02-01T00:00:00Z")
        plans = [it for it in self.due() if it["what"].startswith("plans")]
        what = "plans of disposal are approved and not carried out"
        self.assertEqual(plans, [{"what": what, "count": 1, "how": name}])

    def test_a_night_that_is_missing_and_copies_that_are_too_few(self) -> None:
        self.assertEqual(self.whats(at="2026-03-02T23:00:00Z"), [])
        [late] = self.whats(at="2026-03-04T00:00:00Z")
        self.assertTrue(late.startswith("1 nights are missing, as the last one ended at 2026-"))
        (self.copies / "records-20260201T000000Z.vault").rename(self.copies / "records-20260201T000000Z.vault.damaged")
        self.assertEqual(self.whats(), ["1 copies are too few: there are 1, and 2 are to be there"])
        self.configure(KEEP="1")
        self.assertEqual(self.whats(), [])
        Path(last_done.path_of(self.file)).unlink()
        self.assertEqual(self.whats(), ["1 nights are missing, as none was done to its end"])

    def test_units_that_failed(self) -> None:
        systemctl = self.machine / "bin" / "systemctl"
        systemctl.write_text('#!/bin/sh\ncase $2 in vault-check@*) echo failed ;; *) echo inactive ;; esac\n')
        [found] = self.due()
        self.assertEqual((found["count"], found["how"]), (1, "systemctl status vault-check@records"))

    def test_a_vault_without_units_has_records_alone(self) -> None:
        with mock.patch.object(conf, "is_configured", return_value=False):
            done = self.desk("due", "--vault", str(self.file), "--json", at="2027-01-01")
        self.assertEqual((done.status, done.out), (0, "[]\n"))


class Mail(DueTest):
    def setUp(self) -> None:
        super().setUp()
        self.put("a", "2026-03-31T00:00:00Z")

    def test_it_is_a_message_with_the_text(self) -> None:
        text = self.done("due", "--vault", "records", at=NOW)
        self.assertEqual(text.splitlines(), [
            f"The vault records at {NOW}:", "",
            "- 1 retentions end within 30 days: vaultdesk held --ends-before 2026-03-31",
        ])  # fmt: skip
        out = self.done("due", "--vault", "records", "--mail", "Anna Müller <a@b.example>", at=NOW)
        found = email.message_from_string(out, policy=email.policy.default)
        assert isinstance(found, EmailMessage)
        self.assertEqual((found["To"], found["Subject"]), ("Anna Müller <a@b.example>", "records: what is due"))
        self.assertEqual(found.get_content(), text)
        self.assertNotIn("\r", out)

    def test_it_is_handed_to_sendmail(self) -> None:
        self.done("due", "--vault", "records", "--mail", "a@b.example", "--send", at=NOW)
        sent = (self.machine / "sent").read_text()
        self.assertTrue(sent.startswith("-t -oi\nTo: a@b.example\n"), sent)
        self.configure(DUE_MAIL="c@d.example")
        self.done("due", "--vault", "records", "--send", at=NOW)
        self.assertIn("To: c@d.example", (self.machine / "sent").read_text())
        with mock.patch.dict(os.environ, {"SENDMAIL_STATUS": "3"}):
            done = self.desk("due", "--vault", "records", "--send", at=NOW)
        self.assertEqual(done.status, 1)
        self.assertIn("ended with status 3: the mail wasn't sent", done.err)

    def test_who_can_get_no_mail_is_refused(self) -> None:
        for words, why in (
            (("--send",), "DUE_MAIL"), (("--mail", "nobody"), "is no address"), (("--mail", "a@b\nBcc: c@d"), "--mail"),
        ):  # fmt: skip
            done = self.desk("due", "--vault", "records", *words, at=NOW)
            self.assertEqual((done.status, done.out), (2, ""), words)
            self.assertIn(why, done.err)
