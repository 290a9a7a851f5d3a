"""Pages: a clerk's day in Chromium, behind nginx as the package has it, over a vault that is served.

A driver (selenium) works the browser as a person does: each flow at two widths, 1280 and 320 pixels, and in the dark;
one by the keyboard alone; two users at once; a server that is killed in the middle. Each page that is shown is looked
at: whether it is wider than the window, each text's contrast, a name for each field and button, the order of headings,
and that the browser has nothing to complain of, as of its Content-Security-Policy. Beside the browser, uploads are cut
off in the middle, and a hundred users ask for pages at once. WEB_SHOTS names a folder that gets pictures of the pages.

It runs where the interpreter has selenium and what the pages need, as Debian's /usr/bin/python3.
"""

import base64
import contextlib
import functools
import http.client
import http.server
import importlib.util
import os
import pathlib
import re
import socket
import ssl
import statistics
import threading
import time
import unittest
import urllib.parse

from trials.parts.program import LIMIT, Case, check, needs, ran_words
from trials.parts.web_pages import HOST, LACKING, PASSWORD, Browser, Office, StandIn, together

TAKES_LONG = True
SHOTS = os.environ.get("WEB_SHOTS")
PNG = bytes.fromhex(
    "89504e470d0a1a0a0000000d49484452000000010000000108060000001f15c4890000000d49444154789c6360f8cf50"
    "0f0003860180b2b7c3ad0000000049454e44ae426082"
)
# Pages that a hundred users ask for, and the seconds in which each has to come.
ASKED = ("/", "/find?text=miller", "/bucket/letters", "/version/7", "/holds", "/removed", "/reports", "/state", "/put")
WITHIN = float(os.environ.get("WEB_WITHIN", "1"))


class Pages(Case):
    """An office, and browsers in which users are logged in."""

    KNOWN = ""

    def setUp(self) -> None:
        super().setUp()
        if LACKING:
            self.skipTest(f"this interpreter has no {LACKING[0]}: /usr/bin/python3 has, after trials/setup")
        self.office = Office(self.folder, self.KNOWN)
        self.addCleanup(self.office.close)

    def browser(self, name: str, width: int = 1280) -> Browser:
        """A browser in which that user is logged in."""
        found = Browser(self.office, width, f"{name}-{width}")
        self.addCleanup(found.close)
        found.login(name)
        return found

    def file(self, path: str, content: bytes) -> str:
        """A file in the folder of the trial."""
        target = self.folder / path
        target.parent.mkdir(parents=True, exist_ok=True)
        target.write_bytes(content)
        return str(target)


def shot(browser: Browser, name: str, width: int) -> None:
    """Keeps a picture, where that is asked."""
    if SHOTS:
        browser.shot(pathlib.Path(SHOTS) / f"{name}-{width}.png")


class Day(Pages):
    """A clerk's day without a shell."""

    @needs("chromium", "nginx", "openssl")
    def test_on_a_screen(self) -> None:
        self.day(1280)

    @needs("chromium", "nginx", "openssl")
    def test_on_a_telephone(self) -> None:
        self.day(320)

    def day(self, width: int) -> None:
        """Delivers, finds, answers a question, holds, releases, keeps longer, removes, approves, and reports."""
        it = self.browser("ann", width)
        shot(it, "start", width)
        self.deliver(it, width)
        self.answer(it, width)
        self.hold(it, width)
        self.put(it, width)
        self.remove(it, width)
        self.report(it, width)
        it.press("header button", "Abmelden")
        it.go("/find")
        check("/login" in it.driver.current_url, it.driver.current_url)

    def deliver(self, it: Browser, width: int) -> None:
        for number in (1, 2, 3):
            self.file(f"scans/{number}.txt", f"scan {number}".encode())
        inventory = self.file("list.csv", b"File;Key;Class;Date\n1.txt;2024/1 Smith;deed;2024-05-01\n2.txt;2024/2;deed;2024-05-02\n")
        classes = self.file("years.csv", b"class,years,mode\ndeed,10,GOVERNANCE\n")
        it.press("nav a", "Deliver")
        it.fill(batch="2025-06", folder=str(self.folder / "scans"), inventory=inventory, classes=classes)
        shot(it, "deliver", width)
        it.click("main form[enctype] button")
        check("2024/1 Smith" in it.words() and "1 files of the folder are in no row: 3.txt" in it.words(), it.words())
        shot(it, "plan", width)
        it.press("main button", "Take it in")
        check("files of the folder are in no row" in it.words(), it.words())
        it.press("main button", "Yes, do it")
        check("2 documents are in the vault. Each has the digest of the file that was sent." in it.words(), it.words())
        shot(it, "delivered", width)

    def answer(self, it: Browser, width: int) -> None:
        it.press("nav a", "Find")
        it.fill(text="smith")
        it.click("main form button")
        check("1 document or version" in it.words(), it.words())
        shot(it, "find", width)
        it.click("tbody a")
        check("GOVERNANCE, until 1 Jan 2035" in it.words(), it.words())
        shot(it, "document", width)
        it.press("main a", "The page for a court")
        check("Rules: lawful." in it.words(), it.words())
        shot(it, "court", width)
        it.press("main a", "Back to the document")
        it.press("main a.button", "Show")
        check("scan 1" in it.words(), it.words())
        it.driver.back()

    def hold(self, it: Browser, width: int) -> None:
        it.fill(case="Smith 17")
        it.press("main button", "Put on hold")
        check("Legal hold on" in it.words(), it.words())
        it.press("nav a", "Holds")
        shot(it, "holds", width)
        it.press("main a", "Smith 17")
        it.press("main button", "Lift all holds of this case")
        check("hold OFF" in it.words(), it.words())
        it.press("nav a", "Holds")
        it.fill(prefix="2023/00", case="Miller 1")
        it.press("main button", "Next: which ones")
        check("9 versions" in it.words(), it.words())
        it.press("main button", "Put on hold")
        check("hold ON" in it.words(), it.words())

    def put(self, it: Browser, width: int) -> None:
        it.press("nav a", "Put")
        it.fill(key="2024/3 picture", until="2040-01-01", mode="COMPLIANCE")
        shot(it, "put", width)
        it.press("main button", "Next: what will guard it")
        check("Nobody will be able to remove it" in it.words(), it.words())
        it.fill(file=self.file("picture.png", PNG))
        shot(it, "put-file", width)
        it.press("main button", "Put")
        check("as it was sent" in it.words() and "COMPLIANCE, until 1 Jan 2040" in it.words(), it.words())
        it.press("main a", "Remove for good")
        check("AccessDenied retention-compliance" in it.words(), it.words())
        shot(it, "refused", width)

    def remove(self, it: Browser, width: int) -> None:
        it.go("/find?text=2023/200&state=held")
        it.click("tbody a")
        it.press("main a", "Remove for good")
        shot(it, "remove", width)
        it.press("main button", "Remove for good")
        it.press("main a", "Certificate of destruction")
        check("CERTIFICATE OF DESTRUCTION" in it.words(), it.words())
        it.press("nav a", "Removed")
        check("1 removal" in it.words(), it.words())
        shot(it, "removed", width)
        it.press("main a", "What rules will remove")
        it.press("main button", "Show")
        check("marked letters 300 2023/300 Miller" in it.words(), it.words())
        shot(it, "disposal", width)
        it.press("main button", "Carry out the rules now")
        it.press("main button", "Yes, do it")
        check("letters: 1 marked, 0 removed" in it.words(), it.words())

    def report(self, it: Browser, width: int) -> None:
        it.press("nav a", "Reports")
        it.fill(since="2024-01-01", before="2024-02-01")
        it.press("main button", "Show")
        shot(it, "reports", width)
        it.press("nav a", "State")
        shot(it, "state", width)
        it.press("header button", "Deutsch")
        check("Wie es um das Archiv steht" in it.words(), it.words())
        shot(it, "german", width)


class Others(Pages):
    """The keyboard, the dark, two at once, and what goes wrong."""

    @needs("chromium", "nginx", "openssl")
    def test_by_the_keyboard_alone(self) -> None:
        it = Browser(self.office, 1280, "keys")
        self.addCleanup(it.close)
        keys = it.keys
        it.go("/find?text=Miller+001")
        for text in (keys.TAB, keys.ENTER, keys.TAB, "ann", keys.TAB, PASSWORD):
            it.driver.switch_to.active_element.send_keys(text)
        old = it.find("html")
        it.driver.switch_to.active_element.send_keys(keys.ENTER)
        it.await_next(old)
        check("You are ann" in it.words(), it.words())
        names = self.walked(it)
        check(names[0] == "To the content" and "Log out" in names and "Find" in names, f"Tab goes to {names}")

    def walked(self, it: Browser) -> list[str]:
        """The names of what Tab comes to, each of which shows that it is there."""
        it.driver.refresh()
        names = list[str]()
        for _ in range(60):
            it.driver.switch_to.active_element.send_keys(it.keys.TAB)
            here = it.driver.switch_to.active_element
            ring = it.driver.execute_script("return getComputedStyle(arguments[0]).outlineStyle", here)
            name = here.text or here.get_attribute("id") or here.get_attribute("aria-label") or ""
            if here.tag_name == "body":
                break
            check(ring != "none", f"nothing shows that {name} is where one is")
            names.append(name)
        return names

    @needs("chromium", "nginx", "openssl")
    def test_in_the_dark_and_with_high_contrast(self) -> None:
        it = self.browser("ann", 320)
        for name, value in (("prefers-color-scheme", "dark"), ("prefers-contrast", "more")):
            it.driver.execute_cdp_cmd("Emulation.setEmulatedMedia", {"features": [{"name": name, "value": value}]})
            for path in ("/", "/find?text=miller", "/version/1", "/version/1/delete", "/put?bucket=letters&key=k", "/version/999"):
                it.go(path)
            shot(it, value, 320)

    @needs("chromium", "nginx", "openssl")
    def test_two_at_once(self) -> None:
        ann, bea = self.browser("ann"), self.browser("bea")
        ann.go("/version/1")
        bea.go("/version/1")
        bea.press("main button", "Put on hold")
        check("AccessDenied" in bea.words() and "the right hold" in bea.words(), bea.words())
        ann.press("main button", "Put on hold")
        bea.go("/version/1")
        check("Legal hold on" in bea.words(), bea.words())
        bea.go("/version/1")
        token = ann.driver.get_cookie("__Host-vault")
        check(token["httpOnly"] and token["secure"] and token["sameSite"] == "Lax", token)
        check("__Host-vault" not in ann.driver.execute_script("return document.cookie"), "a script reads the cookie")

    @needs("chromium", "nginx", "openssl")
    def test_a_server_that_is_killed_in_the_middle(self) -> None:
        it = self.browser("ann")
        it.go("/version/1")
        self.office.stop("vault")
        it.press("main button", "Put on hold")
        check("The vault doesn't answer now" in it.words(), it.words())
        shot(it, "down", 1280)
        self.office.start_vault()
        it.go("/version/1")
        check("Legal hold off" in it.words(), it.words())
        it.press("main button", "Put on hold")
        check("Legal hold on" in it.words(), it.words())
        self.office.stop("pages")
        self.office.start_pages()
        it.go("/version/1")
        check("/login" in it.driver.current_url, "a session outlives the pages' server")

    @needs("chromium", "nginx", "openssl")
    def test_an_upload_says_how_far_it_is(self) -> None:
        it = self.browser("ann", 320)
        it.go("/put?bucket=letters&key=large")
        it.fill(file=self.file("large", bytes(1_048_577)))
        check("More than 1,048,576 bytes" in it.script("document.querySelector('[name=file]').validationMessage"), "no word of it")
        it.go("/deliver")
        it.fill(batch="slow", files=self.file("slow.bin", bytes(1_000_000)))
        it.slow(20_000)
        old = it.find("html")
        it.find("main form[enctype] button").click()
        bar = "document.querySelector('.sent:not([hidden]) progress')?.value"
        it.until(f"{bar} > 0")
        share = it.script(bar)
        it.until(f"{bar} > {share}")
        check(it.script(bar) < 1, "the bar is full before all is sent")
        shot(it, "sending", 320)
        it.slow(-1)
        it.await_next(old)
        check("Plan of delivery slow" in it.words(), it.words())
        it.go("/deliver")
        it.fill(batch="slow", files=self.file("slow.bin", b"x"))
        self.office.stop("pages")
        it.find("main form[enctype] button").click()
        it.until("!document.querySelector('.broken').hidden")
        check("The connection broke off" in it.words(), it.words())

    @needs("nginx", "openssl")
    def test_uploads_that_are_cut_off(self) -> None:
        client = Client(self.office, "ann")
        self.addCleanup(client.connection.close)
        before = client.ask("GET", "/find?text=cut")[1].count("<tr>")
        token = client.token("/put?bucket=letters&key=cut")
        body = client.form({"token": token, "bucket": "letters", "key": "cut"}, bytes(500_000))
        for share in (0.1, 0.5, 0.999):
            client.cut_off("/put/file", body, int(len(body[1]) * share))
        check(client.ask("GET", "/find?text=cut")[1].count("<tr>") == before, "an upload that was cut off is put")
        status, _ = client.ask("POST", "/put/file", *body)
        check(status == 303, f"a whole one is answered {status}")
        check(client.ask("GET", "/find?text=cut")[1].count("<tr>") == before + 2, "a whole one isn't put")


class Client:
    """A user without a browser, straight at the pages' port."""

    def __init__(self, office: Office, name: str) -> None:
        self.office, self.cookie = office, ""
        self.connection = http.client.HTTPConnection("127.0.0.1", office.pages, timeout=120)
        first = self.sent("GET", "/login")
        token = re.findall(r'name="token" value="([^"]+)"', first[1])[-1]
        self.cookie = first[2]
        form = urllib.parse.urlencode({"token": token, "name": name, "password": PASSWORD})
        status, text, cookie = self.sent("POST", "/login", form.encode(), "application/x-www-form-urlencoded")
        check(status == 303, f"{name} isn't let in: {status} {text}")
        self.cookie = cookie

    def sent(self, method: str, path: str, body: bytes = b"", kind: str = "") -> tuple[int, str, str]:
        """The status, the page, and the cookies of an answer."""
        headers = {"Cookie": self.cookie} if self.cookie else {}
        self.connection.request(method, path, body or None, headers | ({"Content-Type": kind} if kind else {}))
        reply = self.connection.getresponse()
        cookies = [it.split(";")[0] for it in reply.headers.get_all("Set-Cookie") or [] if "=;" not in it]
        return reply.status, reply.read().decode(errors="replace"), "; ".join(cookies)

    def ask(self, method: str, path: str, kind: str = "", body: bytes = b"") -> tuple[int, str]:
        """The status and the page of an answer."""
        return self.sent(method, path, body, kind)[:2]

    def token(self, path: str) -> str:
        """The token of a page's form."""
        return re.findall(r'name="token" value="([^"]+)"', self.ask("GET", path)[1])[-1]

    @staticmethod
    def form(fields: dict[str, str], content: bytes) -> tuple[str, bytes]:
        """The type and the body of a form with a file."""
        line = "".join(f'--x\r\nContent-Disposition: form-data; name="{name}"\r\n\r\n{it}\r\n' for name, it in fields.items())
        file = '--x\r\nContent-Disposition: form-data; name="file"; filename="f.bin"\r\n\r\n'
        return "multipart/form-data; boundary=x", line.encode() + file.encode() + content + b"\r\n--x--\r\n"

    def cut_off(self, path: str, form: tuple[str, bytes], count: int) -> None:
        """Sends a form up to that many bytes, and ends the connection."""
        head = f"POST {path} HTTP/1.1\r\nHost: pages\r\nCookie: {self.cookie}\r\nContent-Type: {form[0]}\r\n"
        with socket.create_connection(("127.0.0.1", self.office.pages)) as peer:
            peer.sendall(f"{head}Content-Length: {len(form[1])}\r\n\r\n".encode() + form[1][:count])


class Known(Pages):
    """Users whom another service knows: nginx asks it by the lines of the package's file. What stands in for it here is
    ours: oauth2-proxy, OIDC and PAM themselves aren't tried."""

    KNOWN = r"(oauth2|who)"

    def ask(self, method: str, path: str, body: str = "", **headers: str) -> tuple[int, str, str]:
        """The status, the page, and where the answer leads."""
        trusts = ssl.create_default_context(cafile=str(self.folder / "vault.pem"))
        trusts.check_hostname = False
        peer = http.client.HTTPSConnection("127.0.0.1", self.office.tls, timeout=LIMIT, context=trusts)
        kind = {"Content-Type": "application/x-www-form-urlencoded"} if body else {}
        named = {it.replace("_", "-"): value for it, value in headers.items()}
        with contextlib.closing(peer):
            peer.request(method, path, body or None, {"Host": HOST, **kind, **named})
            reply = peer.getresponse()
            cookies = [it.split(";")[0] for it in reply.headers.get_all("Set-Cookie") or []]
            self.cookie = next((it for it in cookies if it.startswith("__Host-vault=")), "")
            return reply.status, reply.read().decode(), reply.headers.get("Location", "")

    @needs("nginx", "openssl")
    def test_a_service_that_nginx_asks(self) -> None:
        service = http.server.ThreadingHTTPServer(("127.0.0.1", self.office.who), StandIn)
        threading.Thread(target=service.serve_forever, daemon=True).start()
        self.addCleanup(service.server_close)
        self.addCleanup(service.shutdown)
        for headers in ({}, {"X_Vault_User": "ann"}):
            status, _, way = self.ask("GET", "/", **headers)
            check((status, way) == (302, "https://login.example.org/"), f"who isn't known is answered {status} {way}")
        self.works(Cookie="_oauth2_proxy=ann")
        check(self.ask("GET", "/", Cookie="_oauth2_proxy=Ann+B")[0] == 401, "a name that is no caller's is let in")

    def works(self, **headers: str) -> None:
        """Fails where `ann`, who is known by these headers, can't put a document on hold, or is taken for another one."""
        status, page, _ = self.ask("GET", "/version/1", X_Vault_User="bea", **headers)
        check(status == 200 and "You are ann" in page, f"{status} {page}")
        token = re.findall(r'name="token" value="([^"]+)"', page)[-1]
        cookies = "; ".join(it for it in (headers.pop("Cookie", ""), self.cookie) if it)
        form = urllib.parse.urlencode({"token": token, "case": "Miller 1"})
        status, page, way = self.ask("POST", "/version/1/hold", form, Cookie=cookies, **headers)
        check((status, way) == (303, "/version/1"), f"a hold is answered {status} {page}")


class Asked(Known):
    """The same where nginx asks for the password: `auth_basic` stands in for `auth_pam`, which sets the same variable."""

    KNOWN = "auth_pam"

    @needs("nginx", "openssl")
    def test_a_service_that_nginx_asks(self) -> None:
        digest = ran_words("openssl", "passwd", "-6", PASSWORD).out
        (self.folder / "passwords").write_text(f"ann:{digest}")
        name = {it: "Basic " + base64.b64encode(f"ann:{it}".encode()).decode() for it in (PASSWORD, "wrong")}
        for headers in ({}, {"X_Vault_User": "ann"}, {"Authorization": name["wrong"]}):
            check(self.ask("GET", "/", **headers)[0] == 401, f"with {list(headers)} alone somebody is let in")
        self.works(Authorization=name[PASSWORD])


class Crowd(Pages):
    is_alone = True

    def test_a_hundred_users_at_once(self) -> None:
        self.look_at(self.slowest())

    def test_a_hundred_users_beside_a_busy_gateway(self) -> None:
        if importlib.util.find_spec("boto3") is None:
            self.skipTest("this interpreter has no boto3: /usr/bin/python3 has, after trials/setup")
        self.office.start_gateway()
        slowest = self.slowest()
        print(f"requests that the gateway answered meanwhile: {self.office.end_load()}")
        self.look_at(slowest)

    @staticmethod
    def look_at(seconds: float) -> None:
        check(seconds < WITHIN, f"a page takes {seconds:.2f} seconds")

    def slowest(self) -> float:
        """The seconds of the slowest page, where a hundred users ask for each page once."""
        took: dict[str, list[float]] = {it: [] for it in ASKED}
        before = self.office.used("pages")
        together(100, functools.partial(self.asks, took))
        for path, seconds in took.items():
            print(f"{path}: {len(seconds)} times, median {statistics.median(seconds):.2f} s, at most {max(seconds):.2f} s")
        each = (self.office.used("pages") - before) / 100 / (len(ASKED) + 2)  # with the two of a login
        print(f"a page takes {each:.4f} seconds of a processor; the machine's load is {os.getloadavg()[0]:.1f}")
        return max(max(it) for it in took.values())

    def asks(self, took: dict[str, list[float]], number: int, start: "threading.Barrier") -> None:
        """One user, who looks at a page, reads it for some seconds, and asks for the next one."""
        client = Client(self.office, f"user{number}")
        start.wait()
        for turn in range(len(ASKED)):
            path = ASKED[(turn + number) % len(ASKED)]
            time.sleep(3 + number % 10 / 5)
            begun = time.monotonic()
            status, text = client.ask("GET", path)
            took[path].append(time.monotonic() - begun)
            check(status == 200, f"{path}: {status} {text}")
        client.connection.close()


if __name__ == "__main__":
    unittest.main()
