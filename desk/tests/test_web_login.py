"""Who comes to the pages: logins, sessions, cookies, the tokens of forms, headers, and the log."""

from __future__ import annotations

import io
import re
import subprocess
import sys
from pathlib import Path
from unittest import mock

from tests.office import OfficeTest
from tests.web_office import PASSWORD, WHY, Browser, WebTest, library, quick_digest, quick_hasher

HEADERS = {
    "Content-Security-Policy": "default-src 'none'", "X-Content-Type-Options": "nosniff", "Cache-Control": "no-store",
}  # fmt: skip


class Login(WebTest):
    def test_who_isnt_logged_in_is_asked_to_and_goes_on_where_she_wanted_to(self) -> None:
        found = self.browser.get("/find?text=M%C3%BCller")
        self.assertEqual((found.status_code, found.location), (303, "/login?next=%2Ffind%3Ftext%3DM%25C3%25BCller"))
        self.browser.get(found.location)
        done = self.browser.send("/login", {"name": "ann", "password": PASSWORD, "next": "/find?text=M%C3%BCller"})
        self.assertEqual((done.status_code, done.location), (303, "/find?text=M%C3%BCller"))
        self.assertEqual(self.browser.get(done.location).status_code, 200)
        self.assertIn("You are ann", self.browser.words())

    def test_a_login_leads_to_no_other_site(self) -> None:
        for target in ("https://evil.example/", "//evil.example/", "/\\evil.example", "javascript:alert(1)", ""):
            browser = Browser(self.app)
            browser.get("/login")
            done = browser.send("/login", {"name": "ann", "password": PASSWORD, "next": target})
            self.assertEqual((done.status_code, done.location), (303, "/"), target)

    def test_a_wrong_name_and_a_wrong_password_are_one_answer(self) -> None:
        said = set()
        for name, password in (("ann", "wrong"), ("zoe", PASSWORD), ("ann", ""), ("Ann", PASSWORD), ("a\nb", PASSWORD)):
            browser = Browser(self.app)
            done = browser.login(name, password)
            self.assertEqual((done.status_code, browser.cookie()), (403, None))
            said.add(browser.words().partition("Log in")[2])
        self.assertEqual(len(said), 1)
        self.assertIn("The name or the password is wrong.", said.pop())

    def test_after_some_wrong_tries_one_waits(self) -> None:
        for _ in range(5):
            self.assertEqual(self.browser.login("ann", "wrong").status_code, 403)
        self.assertEqual(self.browser.login("ann").status_code, 429)
        self.assertIn("wait 5 minutes", self.browser.words())
        self.assertEqual(self.browser.login("bea").status_code, 303, "another user waits too")
        self.now += 299
        self.assertEqual(Browser(self.app).login("ann").status_code, 429)
        self.now += 1
        self.assertEqual(Browser(self.app).login("ann").status_code, 303)

    def test_an_address_waits_whatever_names_it_tries(self) -> None:
        for number in range(30):
            self.assertEqual(self.browser.login(f"user{number}", "wrong").status_code, 403)
        self.assertEqual(self.browser.login("ann").status_code, 429)
        elsewhere = {"X-Forwarded-For": "10.0.0.7"}  # as the proxy says
        self.browser.get("/login")
        form = {"name": "ann", "password": PASSWORD}
        self.assertEqual(self.browser.send("/login", form, headers=elsewhere).status_code, 303)

    def test_an_address_is_what_a_trusted_proxy_says_alone(self) -> None:
        for number in range(6):
            self.browser.get("/login")
            headers = {"X-Forwarded-For": f"10.0.0.{number}"}
            elsewhere = {"REMOTE_ADDR": "10.9.9.9"}
            form = {"name": "ann", "password": "wrong"}
            done = self.browser.send("/login", form, headers=headers, environ_overrides=elsewhere)
        self.assertEqual(done.status_code, 429)

    def test_a_login_without_the_mark_of_its_form_is_none(self) -> None:
        form = {"name": "ann", "password": PASSWORD}
        self.assertEqual(self.browser.post("/login", form).status_code, 403)
        self.browser.get("/login")
        self.assertEqual(self.browser.post("/login", {**form, "token": "x"}).status_code, 403)
        self.assertIsNone(self.browser.cookie())

    def test_the_cookie_is_for_this_origin_over_tls_alone_and_new_at_each_login(self) -> None:
        done = self.browser.login()
        [cookie] = [it for it in done.headers.getlist("Set-Cookie") if it.startswith("__Host-vault=")]
        parts = cookie.split("; ")
        self.assertEqual(sorted(parts[1:]), ["HttpOnly", "Path=/", "SameSite=Lax", "Secure"])
        first = self.browser.cookie()
        self.browser.get("/login")  # which leads to the first page, as one is logged in
        self.assertEqual(self.browser.last.status_code, 303)
        second = Browser(self.app)
        second.login()
        self.assertNotEqual(first, second.cookie())


class Sessions(WebTest):
    def test_it_ends_after_half_an_hour_without_a_request(self) -> None:
        browser = self.ann()
        self.now += 1_799
        self.assertEqual(browser.get("/").status_code, 200)
        self.now += 1_800
        self.assertEqual(browser.get("/").status_code, 303)

    def test_it_ends_after_ten_hours_in_any_case(self) -> None:
        browser = self.ann()
        for _ in range(20):
            self.now += 1_799
            self.assertEqual(browser.get("/").status_code, 200)
        self.now += 25
        self.assertEqual(browser.get("/").status_code, 303)

    def test_who_logs_out_comes_back_by_no_old_cookie(self) -> None:
        browser = self.ann()
        cookie = browser.cookie()
        self.assertEqual(browser.send("/logout").status_code, 303)
        self.assertIsNone(browser.cookie())
        browser.client.set_cookie("vault.test", "__Host-vault", cookie, secure=True)
        self.assertEqual(browser.get("/").status_code, 303)

    def test_a_user_who_is_removed_or_has_another_password_is_out(self) -> None:
        ann, bea = self.ann(), self.of("bea")
        lines = self.users.read_text().splitlines(keepends=True)
        self.users.write_text("".join(it for it in lines if not it.startswith("ann:")))
        self.assertEqual((ann.get("/").status_code, bea.get("/").status_code), (303, 200))
        self.users.write_text(f"bea:{quick_digest('another one')}\n")
        self.assertEqual(bea.get("/").status_code, 303)

    def test_a_forged_cookie_is_nobody(self) -> None:
        for value in ("", "x", "A" * 43, "../../etc/passwd", "é"):
            browser = Browser(self.app)
            browser.client.set_cookie("vault.test", "__Host-vault", value, secure=True)
            self.assertEqual(browser.get("/").status_code, 303, value)

    def test_there_are_so_many_and_no_more(self) -> None:
        browser = self.ann()
        module = library("vaultdesk.web.sessions")
        with mock.patch.object(module, "MOST", 3):
            self.now += 1
            for name in ("bea", "cid", "registrar"):
                self.of(name)
        self.assertEqual(browser.get("/").status_code, 303, "the one that was idle longest goes on")


class Forms(WebTest):
    def test_a_form_needs_the_token_of_its_own_session(self) -> None:
        browser, other = self.ann(), self.of("bea")
        forged = (None, "", "x", other.token())
        for token in forged:
            form = {} if token is None else {"token": token}
            self.assertEqual(browser.post("/logout", form).status_code, 403, token)
            self.assertIn("This form isn't one of this session", browser.words())
            self.assertEqual(browser.get("/").status_code, 200)

    def test_a_form_of_another_site_is_none_even_with_the_token(self) -> None:
        browser = self.ann()
        token = browser.token()
        for headers in (
            {"Origin": "https://evil.example"},
            {"Origin": "null"},
            {"Origin": "https://vault.test.evil.example"},
            {"Sec-Fetch-Site": "cross-site"},
            {"Sec-Fetch-Site": "same-site"},
        ):
            self.assertEqual(browser.post("/logout", {"token": token}, headers=headers).status_code, 403, headers)
        ours = {"Origin": "https://vault.test", "Sec-Fetch-Site": "same-origin"}
        self.assertEqual(browser.post("/logout", {"token": token}, headers=ours).status_code, 303)

    def test_a_form_after_the_session_says_that_nothing_was_changed(self) -> None:
        browser = self.ann()
        token = browser.token()
        self.now += 1_800
        self.assertEqual(browser.post("/logout", {"token": token}).status_code, 403)
        self.assertIn("Your session has ended Nothing was changed.", browser.words())

    def test_a_path_that_changes_something_is_no_get(self) -> None:
        browser = self.ann()
        for rule in self.app.url_map.iter_rules():
            if "POST" in rule.methods and "GET" not in rule.methods:
                path = str(rule).replace("<int:number>", "1").replace("<name>", "docs")
                self.assertEqual(browser.get(path).status_code, 405, path)

    def test_each_answer_has_the_headers_that_shut_it_in(self) -> None:
        browser = self.ann()
        for path in ("/", "/login", "/nowhere", "/static/style.css", "/bucket/cases"):
            answer = browser.get(path)
            for name, value in HEADERS.items():
                if path != "/static/style.css" or name != "Cache-Control":
                    self.assertIn(value, answer.headers.get(name, ""), (path, name))
            self.assertNotIn("unsafe", answer.headers["Content-Security-Policy"])

    def test_no_page_has_a_script_or_a_style_of_its_own(self) -> None:
        for file in (Path(self.app.root_path) / "templates").iterdir():
            text = file.read_text(encoding="utf-8")
            for it in ("<script>", "<style", " style=", " onclick", " onload", " onsubmit", "javascript:", "|safe"):
                self.assertNotIn(it, text, file.name)


class Log(WebTest):
    def test_it_has_who_asked_for_what_from_where_and_what_came_of_it(self) -> None:
        browser = self.ann()
        browser.get("/bucket/docs?prefix=2024/", headers={"X-Forwarded-For": "10.0.0.7"})
        browser.get("/bucket/cases")
        lines = self.log.getvalue().splitlines()
        asked = [re.sub(r"^\S+Z | \d+ms", "", it) for it in lines[-2:]]
        first = "10.0.0.7 ann GET /bucket/docs?prefix=2024/ 200 [list-versions bucket='docs']"
        second = "127.0.0.1 ann GET /bucket/cases 403 [list-versions bucket='cases']"
        self.assertEqual(asked, [first, second])

    def test_it_has_no_password_and_no_cookie_and_no_lines_of_others_words(self) -> None:
        browser = self.ann()
        browser.get("/find?text=a%0Ab%1b[31m")
        browser.login("ann", "hunter2 hunter2")
        log = self.log.getvalue()
        for it in (PASSWORD, "hunter2", browser.cookie() or "?", browser.token() or "?", "\x1b", "\nb"):
            self.assertNotIn(it, log)
        self.assertNotIn("static", log)

    def test_a_fault_of_the_pages_is_in_the_log_alone(self) -> None:
        browser = self.ann()
        with mock.patch("vaultdesk.web.finding.buckets_of", side_effect=ValueError("a secret of the program")):
            self.assertEqual(browser.get("/").status_code, 500)
        self.assertNotIn("secret", browser.text())
        self.assertIn("ValueError: a secret of the program", self.log.getvalue())


class Header(WebTest):
    HEADER = "X-Vault-User"

    def test_who_a_trusted_proxy_names_is_let_in(self) -> None:
        answer = self.browser.get("/", headers={self.HEADER: "ann"})
        self.assertEqual(answer.status_code, 200)
        self.assertIn("You are ann", self.browser.words())
        self.assertNotIn("Log out", self.browser.words())
        self.assertIn("__Host-vault=", answer.headers["Set-Cookie"])

    def test_nobody_else_is_also_with_a_cookie(self) -> None:
        self.assertEqual(self.browser.get("/").status_code, 401)
        self.browser.get("/", headers={self.HEADER: "ann"})
        elsewhere = {"REMOTE_ADDR": "10.0.0.7"}
        for headers in ({}, {self.HEADER: ""}, {self.HEADER: "Ann B"}, {self.HEADER: "ann,bea"}):
            self.assertEqual(self.browser.get("/", headers=headers).status_code, 401, headers)
        named = {self.HEADER: "ann"}
        self.assertEqual(self.browser.get("/", headers=named, environ_overrides=elsewhere).status_code, 401)
        self.assertEqual(self.browser.get("/login", headers=named).status_code, 303)

    def test_another_user_gets_another_session_and_another_token(self) -> None:
        self.browser.get("/", headers={self.HEADER: "ann"})
        first, token = self.browser.cookie(), self.browser.token()
        self.browser.get("/", headers={self.HEADER: "bea"})
        self.assertNotEqual((first, token), (self.browser.cookie(), self.browser.token()))
        form = {"token": token, "language": "de"}
        self.assertEqual(self.browser.post("/language", form, headers={self.HEADER: "bea"}).status_code, 403)


class Words(OfficeTest):
    """What `vaultdesk web` and `users --argon2` say before anything is served."""

    def test_without_its_libraries_it_says_which_to_install(self) -> None:
        for lacking, package in (("flask", "python3-flask"), ("argon2", "python3-argon2")):
            hide = f"import sys; sys.modules[{lacking!r}] = None; from vaultdesk.cli import main; sys.exit(main())"
            words = [sys.executable, "-c", hide, "web", str(self.file), "--port", "0", "--users", "none"]
            done = subprocess.run(words, capture_output=True, text=True, cwd=Path(__file__).parents[1])
            self.assertEqual(done.returncode, 1, done.stderr)
            wanted = r"python3-\w+" if WHY else package  # others that aren't there are named first
            self.assertRegex(done.stderr, f"^vaultdesk web: {wanted} isn't installed: the pages need apt install ")

    def test_it_says_what_it_lacks(self) -> None:
        rows: tuple[tuple[list[str], str], ...] = (
            ([], "who may come? give --users FILE, or --header NAME"),
            (["--users", "none", "--header", "X-User"], "who may come?"),
        )
        for words, said in rows:
            done = self.desk("web", str(self.file), "--port", "0", *words, at=None)
            self.assertIn(said if not WHY else "isn't installed", done.err)

    def test_users_kept_by_argon2_are_the_pages_own(self) -> None:
        if WHY:
            self.skipTest(WHY)
        file, passwords = str(self.folder / "web.users"), library("vaultdesk.web.passwords")
        costs = (passwords.HASHER.time_cost, passwords.HASHER.memory_cost, passwords.HASHER.parallelism)
        self.assertEqual(costs, (3, 65_536, 4))
        self.enterContext(mock.patch.object(passwords, "HASHER", quick_hasher()))
        with mock.patch("sys.stdin", io.StringIO("a long one\nanother long one\n")):
            self.assertEqual(self.desk("users", "add", file, "ann", "--argon2", at=None).status, 0)
            first = Path(file).read_text()
            self.assertEqual(self.desk("users", "password", file, "ann", at=None).status, 0)
        users = passwords.Users(Path(file))
        self.assertRegex(first, r"^ann:\$argon2id\$v=19\$m=64,t=1,p=1\$")
        self.assertEqual(users.let_in("ann", "a long one"), "")
        self.assertTrue(users.let_in("ann", "another long one"))
        self.assertEqual(Path(file).stat().st_mode & 0o777, 0o640)
        Path(file).write_text("ann:$6$x$y\n")
        with self.assertRaisesRegex(Exception, "the password of ann isn't kept by argon2"):
            users.digests()
