"""Departments, buckets and callers."""

from __future__ import annotations

import json

from tests.office import OfficeTest


class Office(OfficeTest):
    def test_what_is_added_is_listed(self) -> None:
        self.done("departments", "--add", "court", "--as", "registrar")
        self.done("buckets", "--add", "files", "--department", "court", "--as", "registrar")
        self.done("callers", "--add", "cid", "--department", "court", "--rights", "put", "get", "--as", "registrar")
        put = {"do": "put", "bucket": "docs", "key": "a", "text": "hello"}
        self.lines(put, {"do": "delete", "bucket": "docs", "key": "b"}, at="2024-01-15T10:00:00Z")
        names = [it["department"] for it in json.loads(self.done("departments", "--json"))]
        self.assertEqual(names, ["court", "records"])
        found = {it["bucket"]: it for it in json.loads(self.done("buckets", "--json"))}
        self.assertEqual((found["docs"]["documents"], found["docs"]["bytes"], found["docs"]["markers"]), (1, 5, 1))
        self.assertEqual((found["files"]["department"], found["files"]["documents"]), ("court", 0))
        callers = {it["caller"]: it for it in json.loads(self.done("callers", "--json"))}
        self.assertEqual((callers["cid"]["department"], callers["cid"]["rights"]), ("court", "put get"))
        done = self.desk("callers", "--close", "cid", "--as", "registrar")
        self.assertEqual(done.status, 2)
        self.assertIn("--yes", done.err)
        self.done("callers", "--close", "cid", "--as", "registrar", "--yes")
        callers = {it["caller"]: it for it in json.loads(self.done("callers", "--json"))}
        self.assertEqual(callers["cid"]["closed"], "closed")

    def test_a_caller_without_a_department_is_asked_about(self) -> None:
        done = self.desk("callers", "--add", "bob", "--rights", "put", "--as", "registrar")
        self.assertEqual(done.status, 2)
        self.assertIn("--department", done.err)
        self.done("callers", "--add", "eve", "--rights", "admin", "--as", "registrar")

    def test_the_last_administrator_stays(self) -> None:
        done = self.desk("callers", "--close", "registrar", "--as", "registrar", "--yes")
        self.assertEqual(done.status, 1)
        self.assertIn("nobody could add another", done.err)
        self.done("callers", "--add", "eve", "--rights", "admin", "--as", "registrar")
        self.done("callers", "--close", "registrar", "--as", "registrar", "--yes")

    def test_a_bucket_moves_with_what_it_holds(self) -> None:
        self.lines({"do": "add-dept", "as": "registrar", "dept": "court"})
        self.lines({"do": "put", "bucket": "docs", "key": "a", "text": "hello"})
        move = ("buckets", "--move", "docs", "--department", "court", "--as", "registrar")
        self.done(*move, "--dry-run")
        self.assertEqual(self.desk(*move).status, 2)
        [before] = json.loads(self.done("buckets", "--json"))
        told = json.loads(self.done(*move, "--yes", "--json"))
        [after] = json.loads(self.done("buckets", "--json"))
        self.assertEqual((before["department"], after["department"], told["bytes"]), ("records", "court", 5))
        self.assertEqual(self.desk("buckets", "--add", "more", "--as", "registrar").status, 2)

    def test_who_may_not_is_refused(self) -> None:
        done = self.desk("departments", "--add", "court")
        self.assertEqual(done.status, 1)
        self.assertIn("right admin", done.err)
