"""What a server answers in parts: the register, a seal, and whether the rules were kept."""

from __future__ import annotations

import json
from typing import Any

from tests.office import Done
from tests.served import FalseServer, ServedTest
from vaultdesk import recheck
from vaultdesk.ways import Line

MOMENT = "2024-02-01T00:00:00Z"


class Parts(ServedTest):
    def in_parts(self, *words: str) -> Done:
        return self.desk(*words, "--parts", "--as", "registrar", at=None)

    def answered(self, replies: dict[int, Line], *words: str) -> tuple[Done, list[dict[str, Any]]]:
        """What the desk says of a server that answers each part so, by the id after which it begins, and its lines."""
        where = self.folder / "false"
        where.unlink(missing_ok=True)
        server = FalseServer(where, lambda line: replies[line["after"]])
        try:
            done = self.in_parts(*words, "--door", str(where))
        finally:
            server.close()
        return done, server.lines

    def test_they_are_what_the_file_has(self) -> None:
        self.lines(
            {"do": "put", "bucket": "docs", "key": "a,\u2028b", "text": "first"},
            {"do": "put", "bucket": "docs", "key": "b", "text": "second"},
            {"do": "delete-version", "bucket": "docs", "key": "a,\u2028b", "id": 1},
        )
        server = self.serve()
        self.done("delete", "docs", "b", "--version", "2", "--yes", at=None)
        ways = (("register",), ("register", "--json"), ("seal",), ("seal", "--before", "2024-02-01"))
        served = [self.in_parts(*it) for it in ways]
        lawful = self.in_parts("lawful")
        self.assertEqual([it.status for it in (*served, lawful)], [0] * 5)
        self.assertEqual(lawful.out, "lawful; that the records of one move agree, within each part alone\n")
        on_a_copy = self.done("lawful", at=None)
        self.end(server)
        self.assertEqual([it.out for it in served], [self.desk(*it, at=None).out for it in ways])
        self.assertEqual((on_a_copy, self.done("lawful", at=None)), ("lawful\n", "lawful\n"))
        self.assertIn("what the server answered", served[2].err)
        self.assertEqual(len(json.loads(served[1].out)), 2)

    def test_each_part_begins_after_the_one_before_it(self) -> None:
        columns = "version,bucket,key,kind,size,sha256,admitted,admitted_by,removed,cause,cause_by,days\n"
        row = "{},docs,k,marker,0,,2024-01-15T10:30:00Z,ann,2024-01-16T00:00:00Z,request,ann,0\n"
        replies: dict[int, Line] = {
            0: {"ok": {"next": 1_000, "text": columns + row.format(7)}},
            1_000: {"ok": {"next": 2_000, "text": ""}},
            2_000: {"ok": {"next": None, "text": row.format(2_001)}},
        }
        done, lines = self.answered(replies, "register")
        self.assertEqual((done.status, done.out), (0, columns + row.format(7) + row.format(2_001)))
        self.assertEqual(lines, [{"as": "registrar", "do": "register", "after": it} for it in replies])

    def test_a_seal_counts_the_events_of_all_parts(self) -> None:
        header = recheck.events.HEADER
        row = '{},{},2024-01-15T10:30:00Z,ann,docs,"k\nk",version,0,,,,,,,records,\n'
        replies: dict[int, Line] = {
            0: {"ok": {"next": 1_000, "text": header + row.format(7, "admitted") + row.format(7, "locked")}},
            1_000: {"ok": {"next": None, "text": row.format(1_001, "admitted")}},
        }
        done, lines = self.answered(replies, "seal", "--before", MOMENT)
        self.assertEqual(done.status, 0, done.err)
        self.assertTrue(done.out.startswith(f"before: {MOMENT}\nentries: 2\nevents: 3\nsha256: "), done.out)
        self.assertEqual([it["before"] for it in lines], [MOMENT] * 2)
        done, _ = self.answered({0: {"ok": {"next": None, "text": "version,event\n"}}}, "seal", "--before", MOMENT)
        self.assertEqual((done.status, done.out), (1, ""))
        self.assertIn("other columns", done.err)

    def test_the_first_breach_of_all_parts(self) -> None:
        replies: dict[int, Line] = {
            0: {"ok": {"breach": None, "next": 1_000}},
            1_000: {"ok": {"breach": {"law": "removal", "version_id": 1_204}, "next": 2_000}},
        }
        done, lines = self.answered(replies, "lawful")
        self.assertEqual((done.status, done.out, len(lines)), (1, "", 2))
        self.assertIn("unlawful 1204 removal", done.err)
        done, _ = self.answered(replies, "lawful", "--json")
        self.assertEqual(json.loads(done.out), {"lawful": False, "verdict": "unlawful 1204 removal", "in_parts": True})

    def test_who_has_no_right_to_them_and_where_no_server_is(self) -> None:
        for it in ("register", "seal", "lawful"):
            done = self.in_parts(it)
            self.assertEqual((done.status, done.out), (1, ""))
            self.assertIn("no server of the vault takes lines", done.err)
        self.serve()
        for it in ("register", "seal", "lawful"):
            done = self.desk(it, "--parts", at=None)
            self.assertEqual((done.status, done.out), (1, ""))
            self.assertIn("right admin", done.err)

    def test_an_earlier_server_doesnt_answer_them(self) -> None:
        done, _ = self.answered({0: {"error": {"code": "MalformedBody", "n": 12}}}, "register")
        self.assertEqual((done.status, done.out), (1, ""))
        self.assertIn("of an earlier version", done.err)
