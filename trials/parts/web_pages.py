"""Pages in a browser: what is started for them, a browser that a driver works, and checks of what it shows."""

import contextlib
import http.server
import importlib
import importlib.util
import json
import os
import pathlib
import re
import subprocess
import sys
import threading
import time
from typing import Any

from trials.parts.program import DESK, LIMIT, PROGRAM, TOP, check, ran_words
from trials.parts.servers import free_port, free_ports, wait_for

PASSWORD = "correct horse battery"
HOST = "pages.example.org"
LACKING = [it for it in ("selenium", "flask", "waitress", "argon2", "babel") if importlib.util.find_spec(it) is None]
RIGHTS = ("config", "put", "retain", "hold", "get", "list", "delete", "delete-version", "run", "report", "bypass")
# What no page may do: reach beyond the window, show text or a field's edge that is hard to see, or have a field or a button
# without a name, a label or a description of nothing, cells of a head without what they are for, or no outline.
CHECKS = """
const faults = [];
const wide = document.documentElement.scrollWidth - document.documentElement.clientWidth;
if (wide > 1) faults.push(`the page is ${wide} pixels wider than the window`);
const light = (text) => {
    const parts = text.match(/[\\d.]+/g).slice(0, 3).map((it) => {
        const part = it / 255;
        return part <= 0.04045 ? part / 12.92 : ((part + 0.055) / 1.055) ** 2.4;
    });
    return 0.2126 * parts[0] + 0.7152 * parts[1] + 0.0722 * parts[2];
};
const below = (it) => {
    for (; it; it = it.parentElement) {
        const back = getComputedStyle(it).backgroundColor;
        if (!/^rgba\\(.*, 0\\)$/.test(back)) return back;
    }
    return "rgb(255, 255, 255)";
};
for (const it of document.querySelectorAll("main *, header *, footer *")) {
    const text = [...it.childNodes].some((node) => node.nodeType === 3 && node.textContent.trim());
    if (!text || !it.offsetParent) continue;
    const both = [light(getComputedStyle(it).color), light(below(it))].sort((a, b) => b - a);
    const contrast = (both[0] + 0.05) / (both[1] + 0.05);
    if (contrast < 4.5) faults.push(`${it.tagName} "${it.textContent.trim().slice(0, 40)}" has the contrast ${contrast.toFixed(1)}`);
}
for (const it of document.querySelectorAll("a, button, input:not([type=hidden]), select, textarea, summary")) {
    const name = it.textContent.trim() || (it.labels && it.labels.length && it.labels[0].textContent.trim());
    if (!name) faults.push(`${it.outerHTML.slice(0, 80)} has no name`);
    const box = it.getBoundingClientRect();
    if (it.offsetParent && it.tagName !== "A" && box.height < 20) faults.push(`${it.tagName} ${name} is ${box.height} pixels high`);
}
const ranks = [...document.querySelectorAll("h1, h2, h3")].map((it) => +it.tagName[1]);
ranks.forEach((rank, at) => { if (rank > (ranks[at - 1] || 0) + 1) faults.push(`a heading of rank ${rank} comes too early`); });
if (document.querySelector("body > header")) {  // not so where a content is shown
    for (const css of ["html[lang]", "title", "header", "main", "h1", "footer"]) {
        const count = document.querySelectorAll(css).length;
        if (count !== 1) faults.push(`${css} is there ${count} times`);
    }
    const ids = [...document.querySelectorAll("[id]")].map((it) => it.id);
    ids.filter((it, at) => ids.indexOf(it) !== at).forEach((it) => faults.push(`several elements have the id ${it}`));
    for (const name of ["for", "aria-describedby"]) {
        for (const it of document.querySelectorAll(`[${name}]`)) {
            const id = it.getAttribute(name);
            if (!document.getElementById(id)) faults.push(`${name} leads to no ${id}`);
        }
    }
    const unfit = "th:not([scope]), img:not([alt]), [tabindex]:not([tabindex='0']):not([tabindex='-1'])";
    document.querySelectorAll(unfit).forEach((it) => faults.push(`${it.outerHTML.slice(0, 80)} lacks something`));
    for (const it of document.querySelectorAll("input:not([type=hidden], [type=checkbox], [type=radio]), select, textarea")) {
        const both = [light(getComputedStyle(it).borderTopColor), light(below(it.parentElement))].sort((a, b) => b - a);
        const contrast = (both[0] + 0.05) / (both[1] + 0.05);
        if (contrast < 3) faults.push(`the edge of ${it.name} has the contrast ${contrast.toFixed(1)}`);
    }
}
return faults;
"""


def selenium(name: str) -> Any:
    """A module of selenium."""
    return importlib.import_module(f"selenium.{name}")


# A client of the gateway that does nothing else: it puts, reads and lists until it is ended, and then says how often.
LOAD = """\
import signal, sys, threading, boto3, botocore.config
where, access, secret = sys.argv[1:]
is_over, counts = threading.Event(), []
signal.signal(signal.SIGTERM, lambda *_: is_over.set())
def work(number):
    config = botocore.config.Config(signature_version="s3v4", s3={"addressing_style": "path"}, retries={"max_attempts": 1})
    client = boto3.session.Session(access, secret, region_name="us-east-1").client("s3", endpoint_url=where, config=config)
    done = 0
    while not is_over.is_set():
        key = f"load/{number}/{done}"
        client.put_object(Bucket="letters", Key=key, Body=bytes(20_000))
        client.get_object(Bucket="letters", Key=key)["Body"].read()
        client.list_objects_v2(Bucket="letters", Prefix=f"load/{number}/")
        done += 1
    counts.append(3 * done)
threads = [threading.Thread(target=work, args=(it,)) for it in range(4)]
for it in threads: it.start()
is_over.wait()
for it in threads: it.join()
print(len(counts), sum(counts))
"""


class StandIn(http.server.BaseHTTPRequestHandler):
    """Answers nginx as oauth2-proxy does: who it is by a cookie of that name, else where one logs in."""

    def do_GET(self) -> None:
        self.rfile.read(int(self.headers.get("Content-Length") or 0))  # which nginx has to leave out
        name = re.search(r"_oauth2_proxy=([^;]*)", self.headers.get("Cookie") or "")
        if self.path != "/oauth2/auth":
            self.send_response(302)
            self.send_header("Location", "https://login.example.org/")
        else:
            self.send_response(202 if name else 401)
            self.send_header("X-Auth-Request-Preferred-Username", name[1] if name else "")
        self.send_header("Content-Length", "0")
        self.end_headers()

    def log_message(self, *_: object) -> None:
        """Nothing is said."""


class Office:
    """A vault of the department `records` that is served, its pages, and nginx before them. `known` is how nginx knows
    its users where the pages don't: a word of those lines of its file that are for that."""

    def __init__(self, folder: pathlib.Path, known: str = "") -> None:
        self.folder, self.file, self.door, self.known = folder, folder / "records.vault", folder / "lines", known
        self.port, self.pages, self.tls, self.who = free_ports(4)
        self.servers: dict[str, subprocess.Popen[bytes]] = {}
        self.make()
        self.start_vault()
        self.start_pages()
        self.start_nginx()

    def asked(self, *lines: dict[str, Any]) -> None:
        """Has the engine carry out these lines over the file, before it is served."""
        given = "".join(json.dumps({"at": "2024-01-15T09:00:00Z", "as": "registrar", **it}) + "\n" for it in lines)
        ran = ran_words(PROGRAM, "replay", self.file, given=given)
        check(ran.out.count('{"ok"') == len(lines), ran)

    def make(self) -> None:
        """Makes the vault and its users."""
        ran_words(PROGRAM, "init", self.file)
        callers = {"ann": RIGHTS, "bea": ("put", "list", "get"), **{f"user{it}": RIGHTS for it in range(100)}}
        self.asked(
            {"do": "add-dept", "dept": "records"}, {"do": "add-bucket", "bucket": "letters", "dept": "records"},
            *({"do": "add-caller", "caller": it, "dept": "records", "rights": rights} for it, rights in callers.items()),
            *({"do": "put", "as": "ann", "bucket": "letters", "key": f"2023/{it:03} Miller", "text": f"letter {it}"}
              for it in range(1, 301)),
            {"do": "set-rules", "as": "ann", "bucket": "letters",
             "rules": [{"ID": "old", "Status": "Enabled", "Prefix": "2023/300", "Expiration": {"Days": 30}}]},
        )  # fmt: skip
        passwords = importlib.import_module("argon2").PasswordHasher(time_cost=1, memory_cost=64, parallelism=1)
        digest = passwords.hash(PASSWORD)
        (self.folder / "users").write_text("".join(f"{it}:{digest}\n" for it in callers))

    def begin(self, name: str, *words: object, **more: str) -> None:
        """Starts a server, which writes what it says to a file of its name."""
        env = {**os.environ, "VAULTCTL": str(PROGRAM), "VAULTDESK_SETTINGS": "", **more}
        with (self.folder / f"{name}.log").open("ab") as log:
            self.servers[name] = subprocess.Popen([str(it) for it in words], stdout=log, stderr=log, env=env)

    def start_vault(self) -> None:
        """Serves the vault."""
        self.begin("vault", PROGRAM, "serve", self.file, self.port, "--lines", self.door)
        wait_for(self.port)

    def start_pages(self) -> None:
        """Serves the pages, by the interpreter that has what they need."""
        who = ("--header", "X-Vault-User") if self.known else ("--users", self.folder / "users")
        self.begin("pages", sys.executable, DESK, "web", self.file, "--port", self.pages, *who, "--door", self.door)
        wait_for(self.pages)

    def start_nginx(self) -> None:
        """Starts nginx with the file of the package, at a port of this trial."""
        folder = self.folder
        ran_words(
            "openssl", "req", "-x509", "-newkey", "rsa:2048", "-nodes", "-days", "2", "-subj", f"/CN={HOST}",
            "-keyout", folder / "vault.key", "-out", folder / "vault.pem",
        )  # fmt: skip
        text = self.nginx_text()
        where = "".join(f"{it}_temp_path {folder}/{it};" for it in ("client_body", "proxy", "fastcgi", "uwsgi", "scgi"))
        log = f"pid {folder}/nginx.pid; daemon off; error_log {folder}/error.log;"
        user = "user root;" if os.geteuid() == 0 else ""
        (folder / "nginx.conf").write_text(f"{user} {log} events {{}} http {{ access_log off; {where}\n{text}\n}}\n")
        self.begin("nginx", "nginx", "-p", folder, "-e", folder / "error.log", "-c", folder / "nginx.conf")
        wait_for(self.tls)

    def start_gateway(self) -> None:
        """Starts the gateway for clients of S3 over the vault's server, and four clients that keep it busy."""
        port, settings = free_port(), self.folder / "s3.toml"
        given = {"vault": str(self.file), "keys": str(self.folder / "keys.toml"), "door": str(self.door), "port": port}
        settings.write_text("".join(f"{it} = {json.dumps(value)}\n" for it, value in given.items()))
        ran = ran_words(DESK, "s3", "key", "add", "ann", "--settings", settings, "--json")
        key = json.loads(ran.out)
        self.begin("gateway", DESK, "s3", "serve", "--settings", settings)
        wait_for(port)
        words = (f"http://127.0.0.1:{port}", key["access_key"], key["secret"])
        self.begin("load", sys.executable, "-c", LOAD, *words)

    def end_load(self) -> int:
        """Ends the gateway's clients, and returns how many requests they had answered; none of them failed."""
        self.servers["load"].terminate()
        self.servers.pop("load").wait()
        ended, count = self.log("load").split()[-2:]
        check(ended == "4", f"a client of the gateway failed: {self.log('load')}")
        return int(count)

    def nginx_text(self) -> str:
        """The file of the package, for this trial."""
        text = (TOP / "packaging" / "nginx-web.conf").read_text()
        if self.known:
            text = re.sub(rf"^( *)#(?=\S.*{self.known})", r"\1", text, flags=re.MULTILINE)
        for old, new in {
            "listen 443 ssl": f"listen 127.0.0.1:{self.tls} ssl", "127.0.0.1:8090": f"127.0.0.1:{self.pages}",
            "/etc/ssl/": f"{self.folder}/", "127.0.0.1:4180": f"127.0.0.1:{self.who}",
            'auth_pam "Vault"; auth_pam_service_name "vault"': f'auth_basic "Vault"; auth_basic_user_file {self.folder}/passwords',
        }.items():  # fmt: skip
            check(old in text, f"nginx-web.conf has no {old}")
            text = text.replace(old, new)
        return text.partition("server {\n    listen 80;")[0]

    def stop(self, name: str) -> None:
        """Kills a server."""
        self.servers[name].kill()
        self.servers.pop(name).wait()

    def close(self) -> None:
        """Ends all servers: nginx in good order, as it has others below it."""
        for it in list(self.servers):
            if it == "nginx":
                self.servers[it].terminate()
                self.servers[it].wait()
            else:
                self.stop(it)

    def used(self, name: str) -> float:
        """The seconds of the processor that a server has taken."""
        found = pathlib.Path(f"/proc/{self.servers[name].pid}/stat").read_text().rpartition(")")[2].split()
        return (int(found[11]) + int(found[12])) / os.sysconf("SC_CLK_TCK")

    def log(self, name: str) -> str:
        """What a server said."""
        return (self.folder / f"{name}.log").read_text(errors="replace")

    @property
    def url(self) -> str:
        """Where the pages are, for a browser."""
        return f"https://{HOST}:{self.tls}"


class Browser:
    """Chromium, worked by its driver; `faults` are what its console said of pages."""

    def __init__(self, office: Office, width: int, name: str) -> None:
        options = selenium("webdriver").ChromeOptions()
        options.binary_location = "/usr/bin/chromium"
        self.downloads = office.folder / f"downloads-{name}"
        self.downloads.mkdir()
        for it in (
            "--headless=new", "--no-sandbox", "--disable-gpu", "--disable-dev-shm-usage", "--ignore-certificate-errors",
            "--hide-scrollbars", "--lang=en", f"--user-data-dir={office.folder}/browser-{name}",
            f"--window-size={width},900", f"--host-resolver-rules=MAP {HOST} 127.0.0.1",
        ):  # fmt: skip
            options.add_argument(it)
        options.set_capability("goog:loggingPrefs", {"browser": "ALL"})
        options.add_experimental_option("prefs", {"download.default_directory": str(self.downloads), "intl.accept_languages": "en"})
        service = selenium("webdriver.chrome.service").Service("/usr/bin/chromedriver")
        self.driver = selenium("webdriver").Chrome(service=service, options=options)
        self.driver.set_page_load_timeout(120)
        # A headless window is never narrower than 500 pixels: the page is laid out for this width all the same.
        metrics = {"width": width, "height": 900, "deviceScaleFactor": 1, "mobile": False}
        self.driver.execute_cdp_cmd("Emulation.setDeviceMetricsOverride", metrics)
        self.office, self.seen = office, list[str]()
        self.keys = selenium("webdriver.common.keys").Keys

    def close(self) -> None:
        self.driver.quit()

    def go(self, path: str) -> None:
        """Opens a page, and looks at it."""
        self.driver.get(self.office.url + path)
        self.look()

    def find(self, css: str) -> Any:
        return self.driver.find_element("css selector", css)

    def fill(self, **fields: str) -> None:
        """Fills in fields by their names; a file is a path."""
        for name, text in fields.items():
            it = self.find(f"main [name={name}]")
            if it.get_attribute("type") == "date":
                self.driver.execute_script("arguments[0].value = arguments[1]", it, text)
            elif it.tag_name == "select":
                selenium("webdriver.support.ui").Select(it).select_by_value(text)
            else:
                it.send_keys(text)

    def click(self, css: str) -> None:
        """Clicks something, waits for the page that comes of it, and looks at that."""
        old = self.find("html")
        self.find(css).click()
        self.await_next(old)

    def await_next(self, old: Any) -> None:
        """Waits until another page has come in the place of one."""
        stale = selenium("common.exceptions").WebDriverException  # of a page that is going, which has several names
        end = time.monotonic() + LIMIT
        with contextlib.suppress(stale):
            while time.monotonic() < end:
                old.is_enabled()
                time.sleep(0.02)
            check(False, f"no page comes after {self.driver.current_url}")
        while self.driver.execute_script("return document.readyState") != "complete":
            time.sleep(0.02)
        self.look()

    def script(self, text: str) -> Any:
        """The value of an expression on the page."""
        return self.driver.execute_script(f"return {text}")

    def until(self, text: str) -> None:
        """Waits until an expression on the page is true."""
        end = time.monotonic() + LIMIT
        while not self.script(text):
            if time.monotonic() > end:
                check(False, f"{self.driver.current_url}: {text} doesn't become true: {self.words()}")
            time.sleep(0.05)

    def slow(self, each: int) -> None:
        """Has the browser send so many bytes in a second; -1 is as many as it can."""
        how = {"offline": False, "latency": 0, "downloadThroughput": -1, "uploadThroughput": each}
        self.driver.execute_cdp_cmd("Network.enable", {})
        self.driver.execute_cdp_cmd("Network.emulateNetworkConditions", how)

    def press(self, css: str, text: str) -> None:
        """Clicks what has these words among what that selects."""
        there = [it for it in self.driver.find_elements("css selector", css) if text in it.text]
        check(there, f"{self.driver.current_url} has no {text!r}: {self.words()[:2000]}")
        old = self.find("html")
        there[0].click()
        self.await_next(old)

    def words(self) -> str:
        """What the page shows."""
        return " ".join(self.find("body").text.split())

    def look(self) -> None:
        """Fails where the page breaks a rule, or the browser complains of it."""
        found = self.driver.execute_script(CHECKS)
        check(not found, f"{self.driver.current_url}: {found}")
        # The status of an answer that is a refusal is one that was wanted.
        said = [it["message"] for it in self.driver.get_log("browser") if "Failed to load resource" not in it["message"]]
        check(not said, f"{self.driver.current_url}: the browser says {said}")
        self.seen.append(re.sub(r"^https://[^/]*", "", self.driver.current_url))

    def login(self, name: str) -> None:
        """Logs in by the form."""
        self.go("/login")
        self.fill(name=name, password=PASSWORD)
        self.click("main button")
        check(f"You are {name}" in self.words(), self.words())

    def shot(self, path: pathlib.Path, height: int = 900) -> None:
        """Keeps what is seen as a picture."""
        self.driver.save_screenshot(str(path))


def together(count: int, work: Any) -> None:
    """Has that many threads do something at the same moment. What one of them raises is raised."""
    start, faults = threading.Barrier(count), list[BaseException]()

    def run(number: int) -> None:
        try:
            work(number, start)
        except BaseException as error:
            faults.append(error)
            start.abort()

    threads = [threading.Thread(target=run, args=(it,)) for it in range(count)]
    for it in threads:
        it.start()
    for it in threads:
        it.join()
    for fault in faults:
        raise fault
