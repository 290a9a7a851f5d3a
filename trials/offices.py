"""Offices: three vaults behind one port. nginx routes by bucket, registers and reports are gathered, each is backed up.

nginx runs with what `vaultdesk offices map` prints of the vaults, and with packaging/nginx-vaults.conf as it is, but
for its port, the paths of its files, and a certificate of its own; its users are those that `vaultdesk users` makes.
Beside them it runs with packaging/nginx-vault.conf, before the first of the vaults alone. Each request reaches the
vault that has its bucket, with the user's name as its caller; a vault that is down is named, and disturbs no other.
What the vault answers 501 is 501 through nginx too, and what nginx answers by itself has the form of the vault's
answers.
"""

import csv
import io
import json
import os
import re
import subprocess

from trials.parts.program import DESK, OPENED_AT, PROGRAM, TOP, Case, check, needs, printed, ran_words
from trials.parts.servers import ended, free_port, free_ports, started, wait_for

PACKAGING = TOP / "packaging"
PASSWORD = "a long one"
LATER = "2099-01-01T00:00:00Z"
VAULTS = {"records": ("ann", ["letters", "drafts"]), "court": ("cid", ["cases"]), "land": ("lea", ["deeds", "maps"])}
# Headers to which the vault answers 501, whatever the method is.
REFUSED = [
    "If-Match: \"a\"",
    "If-Unmodified-Since: Mon, 15 Jan 2024 10:30:00 GMT",
    "x-amz-tagging: a=b",
    "x-amz-copy-source: /letters/a",
    "x-amz-content-sha256: STREAMING-AWS4-HMAC-SHA256-PAYLOAD",
    "Content-Encoding: aws-chunked",
]
# Headers that nginx drops from a GET and a HEAD alone, whose whole answer is right without them.
DROPPED = ["If-None-Match: *", "If-Modified-Since: Mon, 15 Jan 2024 10:30:00 GMT", "Range: bytes=0-1"]
# What nginx answers by itself.
UNKNOWN = b'{"code":"AccessDenied","n":3,"reason":"unknown-caller"}'
MALFORMED = b'{"code":"InvalidArgument","n":10}'
TOO_LARGE = b'{"code":"EntityTooLarge","n":13}'
DOWN = b'{"code":"Device","n":23}'


def answered(*words, given=b""):
    """The status and the body of what curl is answered."""
    words = ["curl", "-s", "-w", "\n%{http_code}", *words]
    body, _, status = subprocess.run(words, input=given, stdout=subprocess.PIPE, timeout=60).stdout.rpartition(b"\n")
    return int(status), body


class Offices:
    """Three vaults in a folder, their servers, and nginx before them."""

    def __init__(self, folder):
        self.folder = folder
        *ports, self.port, self.single = free_ports(len(VAULTS) + 2)
        self.nowhere = free_port()
        self.ports = dict(zip(VAULTS, ports))
        self.servers, self.nginx = {}, None
        for name in VAULTS:
            self.make(name)
        self.vaults = self.map()

    def run(self, *words, given=""):
        return printed(*words, cwd=self.folder, given=given)

    def make(self, name):
        caller, buckets = VAULTS[name]
        self.run("init", f"{name}.vault")
        lines = [{"do": "add-dept", "dept": name}]
        rights = ["put", "get", "list", "delete-version", "report"]
        lines += [{"do": "add-caller", "caller": caller, "dept": name, "rights": rights}]
        lines += [{"do": "add-bucket", "bucket": it, "dept": name} for it in buckets]
        given = "".join(json.dumps({"at": OPENED_AT, "as": "registrar", **it}) + "\n" for it in lines)
        check("error" not in self.run("replay", f"{name}.vault", given=given), f"{name} isn't made")

    def start(self, name):
        self.servers[name] = started(f"{name}.vault", self.ports[name], folder=self.folder)

    def stop(self, name):
        ended(self.servers.pop(name))

    def desk(self, *words, given=""):
        """What the desk does with these words, whose vaults and configurations are those of the trial."""
        places = {"VAULT_CONF": self.folder / "conf", "VAULT_FOLDER": self.folder, "VAULTCTL": PROGRAM}
        env = {**os.environ, **{name: str(path) for name, path in places.items()}}
        return ran_words(DESK, *words, given=given, cwd=self.folder, env=env)

    def map(self):
        """The file of nginx with the ports and buckets of the vaults, as the desk prints it."""
        (self.folder / "conf").mkdir()
        for name, port in self.ports.items():
            (self.folder / "conf" / f"{name}.conf").write_text(f"PORT={port}\nBACKUP={self.folder}\n")
        made = self.desk("offices", "map", "--nowhere", str(self.nowhere))
        check((made.status, made.err) == (0, ""), f"the map's answer is {made}")
        (self.folder / "vaults.conf").write_text(made.out)
        return f"include {self.folder}/vaults.conf;"

    def configured(self, name):
        """A file of nginx with the ports and paths of this trial."""
        text = (PACKAGING / name).read_text()
        passes = "proxy_pass http://127.0.0.1:"
        text = text.replace(f"{passes}8080;", f"{passes}{self.ports['records']};")
        port = self.single if name == "nginx-vault.conf" else self.port
        text = text.replace("listen 443", f"listen 127.0.0.1:{port}")
        text = re.sub(r"/etc/(?:ssl|nginx)/", f"{self.folder}/", text).replace("/vault.", "/vaults.")
        (self.folder / name).write_text(text)
        return f"include {self.folder}/{name};"

    def start_nginx(self):
        names = ["-subj", "/CN=vaults.example.org", "-keyout", "vaults.key", "-out", "vaults.pem"]
        words = ["openssl", "req", "-x509", "-newkey", "rsa:2048", "-nodes", "-days", "2", *names]
        subprocess.run(words, cwd=self.folder, check=True, capture_output=True)
        for caller, _ in VAULTS.values():
            added = self.desk("users", "add", "vaults.users", caller, given=f"{PASSWORD}\n")
            check(added.status == 0, f"a user's answer is {added}")
        kinds = ("client_body", "proxy", "fastcgi", "uwsgi", "scgi")
        paths = " ".join(f"{it}_temp_path {self.folder}/{it};" for it in kinds)
        sites = "\n".join([self.vaults, *map(self.configured, ("nginx-vaults.conf", "nginx-vault.conf"))])
        user = "user root;" if os.getuid() == 0 else ""
        (self.folder / "nginx.conf").write_text(
            f"{user} daemon off; pid {self.folder}/pid; error_log {self.folder}/error.log;\n"
            f"events {{}} http {{ access_log off; {paths}\n{sites} }}\n"
        )
        words = ["nginx", "-p", self.folder, "-e", f"{self.folder}/error.log", "-c", f"{self.folder}/nginx.conf"]
        self.nginx = subprocess.Popen(words)
        wait_for(self.port)

    def close(self):
        for name in list(self.servers):
            self.stop(name)
        if self.nginx:
            self.nginx.terminate()
            self.nginx.wait()

    def ask(self, caller, path, *words, given=b"", port=None):
        """A request by a user: the status and the body of its answer."""
        url = f"https://127.0.0.1:{port or self.port}{path}"
        return answered("-k", "--path-as-is", "-u", f"{caller}:{PASSWORD}", *words, url, given=given)

    def ask_straight(self, caller, path, *words, given=b""):
        """The same request, to the server of the first vault itself."""
        url = f"http://127.0.0.1:{self.ports['records']}{path}"
        return answered("--path-as-is", "-H", f"x-vault-caller: {caller}", *words, url, given=given)

    def put(self, caller, path, content):
        return self.ask(caller, path, "-X", "PUT", "--data-binary", "@-", given=content)


def try_routes(offices):
    """Each vault gets what is put into its buckets, under the keys as they were sent, and answers it."""
    paths = ["/a", "/2024/a%20b", "/x//y", "/a%2Fb", "/%C3%A9", "/q%3Fq", "/down/cases/letters"]
    for caller, buckets in VAULTS.values():
        for bucket in buckets:
            for path in paths:
                content = f"{bucket}{path}".encode()
                check(offices.put(caller, f"/{bucket}{path}", content)[0] == 200, f"/{bucket}{path} isn't put")
                told = offices.ask(caller, f"/{bucket}{path}")
                check(told == (200, content), f"/{bucket}{path} is answered {told}")
            status, body = offices.ask(caller, f"/{bucket}?versions")
            keys = sorted(it["key"] for it in json.loads(body)["entries"])
            wanted = sorted(["a", "2024/a b", "x//y", "a/b", "é", "q?q", "down/cases/letters"])
            check((status, keys) == (200, wanted), f"{bucket} has {keys}")


def try_who_asks(offices):
    """The caller is the user whom nginx knows, whatever a client's header says; one vault's caller is nobody in
    another."""
    status, body = offices.ask("ann", "/cases/a")
    check((status, json.loads(body)["reason"]) == (403, "unknown-caller"), f"ann reads {body} in the court's vault")
    status, body = offices.ask("ann", "/cases/a", "-H", "x-vault-caller: cid")
    check((status, json.loads(body)["reason"]) == (403, "unknown-caller"), f"ann reads {body} as cid")
    check(offices.ask("eve", "/cases/a")[0] == 401, "a user whom nobody knows is let in")
    status, _ = answered("-k", "-u", "cid:another one", f"https://127.0.0.1:{offices.port}/cases/a")
    check(status == 401, f"a user with another password is answered {status}")
    for path in ("/dogs/a", "/", "/lettersx/a", "/%6cetters/a"):
        given = offices.ask("ann", path)
        check(given == (404, b'{"code":"NoSuchBucket","n":4}'), f"{path} is answered {given}")
        check(offices.ask("eve", path)[0] == 401, f"{path} is answered to nobody")


def try_ports():
    """The example of a configuration and that of nginx for one vault name one port."""
    configured = re.search(r"^PORT=(\d+)$", (PACKAGING / "records.conf").read_text(), re.M)[1]
    passed_to = re.search(r"proxy_pass http://127\.0\.0\.1:(\d+);", (PACKAGING / "nginx-vault.conf").read_text())[1]
    check(configured == passed_to, f"the vault records has the ports {configured} and {passed_to}")


def try_refused(offices):
    """What the vault answers 501 is 501 through both files of nginx, and nothing comes of it."""
    before = json.loads(offices.ask("ann", "/letters?versions")[1])
    rows = [("PUT", key, it) for it in [*REFUSED, *DROPPED] for key in ("a", "absent")]
    rows += [("DELETE", "a", it) for it in [*REFUSED, *DROPPED]] + [("GET", "a", it) for it in REFUSED]
    for method, key, header in rows:
        words = ["-X", method, "-H", header, *(["--data-binary", "@-"] if method == "PUT" else [])]
        asked = "ann", f"/letters/{key}", *words
        straight = offices.ask_straight(*asked, given=b"x")
        check(straight == (501, b'{"code":"NotImplemented","n":17}'), f"{method} {key} {header} straight: {straight}")
        for port in (offices.port, offices.single):
            given = offices.ask(*asked, given=b"x", port=port)
            check(given == straight, f"{method} {key} {header} through nginx: {given}, and straight {straight}")
    after = json.loads(offices.ask("ann", "/letters?versions")[1])
    check(before == after, f"of what is refused comes {after}, and before it was {before}")


def try_dropped(offices):
    """A GET and a HEAD are answered whole, without the headers that nginx drops."""
    for header in DROPPED:
        for port in (offices.port, offices.single):
            given = offices.ask("ann", "/letters/a", "-H", header, port=port)
            check(given == (200, b"letters/a"), f"GET with {header}: {given}")
            status, _ = offices.ask("ann", "/letters/a", "-I", "-H", header, port=port)
            check(status == 200, f"HEAD with {header}: {status}")


def try_own_answers(offices):
    """What nginx answers by itself has the form of the vault's answers, and is what the vault answers where it can."""
    large = bytes(4 * 1024 * 1024 + 1)
    too_large = offices.ask_straight("ann", "/letters/large", "-X", "PUT", "--data-binary", "@-", given=large)
    check(too_large == (400, TOO_LARGE), f"too large a body straight: {too_large}")
    for port in (offices.port, offices.single):
        given = offices.ask("ann", "/letters/large", "-X", "PUT", "--data-binary", "@-", given=large, port=port)
        check(given == too_large, f"too large a body through nginx: {given}")
        for asked in (("/letters/a%00b",), ("/letters/a", "-H", f"x-long: {'a' * 40000}")):
            given, straight = offices.ask("ann", *asked, port=port), offices.ask_straight("ann", *asked)
            check(given == straight == (400, MALFORMED), f"{asked[0]}: {given} through nginx, and straight {straight}")
        for path in ("/letters/a", "/letters?versions"):
            given = offices.ask("eve", path, "-i", port=port)
            head, _, body = given[1].partition(b"\r\n\r\n")
            check((given[0], body) == (401, UNKNOWN), f"a user whom nobody knows: {given}")
            check(b"www-authenticate: basic" in head.lower(), f"nobody is asked for a password: {head}")
            check(b"content-type: application/json" in head.lower(), f"of a user whom nobody knows: {head}")
    offices.stop("records")
    given = offices.ask("ann", "/letters/a", port=offices.single)
    check(given == (503, DOWN), f"a vault that is down: {given}")
    offices.start("records")


def try_down(offices):
    """A vault that is down is named; the others go on, and so does it once it is back."""
    offices.stop("court")
    down = (503, b'{"code":"Device","n":23,"vault":"court"}')
    check(offices.ask("cid", "/cases/a") == down, f"{offices.ask('cid', '/cases/a')}")
    check(offices.put("cid", "/cases/late", b"late")[0] == 503, "something is put into a vault that is down")
    check(offices.ask("ann", "/letters/a") == (200, b"letters/a"), "one vault that is down disturbs another")
    check(offices.put("lea", "/maps/late", b"late")[0] == 200, "one vault that is down disturbs another")
    offices.start("court")
    check(offices.ask("cid", "/cases/a") == (200, b"cases/a"), "a vault isn't back")
    check(offices.ask("cid", "/cases/late")[0] == 404, "what was answered 503 was put")
    for name, (caller, buckets) in VAULTS.items():
        status, _ = offices.ask(caller, f"/{buckets[0]}/a?versionId=1", "-X", "DELETE")
        check(status == 204, f"version 1 of {name} isn't removed: {status}")


def try_listed(offices):
    """The buckets of a vault that is served are in the map, and a copy of it is made, while the server goes on."""
    made = offices.desk("backup", "records.vault", "served")
    check(made.status == 0, f"the answer to a backup while a vault is served is {made}")
    made = offices.desk("offices", "map", "records")
    wanted = f"~^/({'|'.join(sorted(VAULTS['records'][1]))})"
    check(made.status == 0 and wanted in made.out, f"the map of a vault that is served is {made}")


def try_gathered(offices):
    """The registers and reports of all are those of each."""
    files = [f"{it}.vault" for it in VAULTS]
    served = offices.desk("offices", "registers", *files)
    for name in VAULTS:
        offices.stop(name)
    rows = list(csv.DictReader(io.StringIO(offices.desk("offices", "registers", *files).out)))
    check(list(csv.DictReader(io.StringIO(served.out))) == rows, f"registers of vaults that are served are {served}")
    wanted = [
        {"vault": name, **row}
        for name in VAULTS
        for row in csv.DictReader(io.StringIO(offices.run("register", f"{name}.vault")))
    ]
    check(len(rows) == 3 and rows == sorted(wanted, key=lambda it: it["removed"]), f"the registers are {rows}")
    told = offices.desk("offices", "reports", "--at", LATER, *files).out.splitlines()
    each = [offices.run("report", f"{it}.vault", it, "--as", "registrar", "--at", LATER).split() for it in VAULTS]
    wanted = [",".join([name, *words[1::2]]) for name, words in zip(VAULTS, each)]
    has_names = told[0].startswith("vault,department,at,")
    check(told[1:] == wanted and has_names, f"the reports are {told}, and not {wanted}")
    backed = offices.desk("offices", "backup", "copies", *files)
    copies = backed.out.split()
    check(backed.status == 0 and len(copies) == 3, f"the answer to a backup is {backed}")
    for name, copy in zip(VAULTS, copies):
        same = offices.run("register", copy) == offices.run("register", f"{name}.vault")
        check(same and offices.run("verify", copy) == "sound\n", f"{copy} isn't {name}'s")
    (offices.folder / "court.vault").write_bytes(b"no vault")
    backed = offices.desk("offices", "backup", "more", *files)
    check(backed.status == 1 and len(backed.out.split()) == 2, f"the answer to what is no vault is {backed}")


class OfOffices(Case):
    def test_ports(self):
        try_ports()

    @needs("nginx", "openssl", "curl")
    def test_three_vaults(self):
        offices = Offices(self.folder)
        self.addCleanup(offices.close)
        for name in VAULTS:
            offices.start(name)
        offices.start_nginx()
        # Each of them goes on with what those before it left.
        for part in (
            try_routes, try_who_asks, try_refused, try_dropped, try_own_answers, try_down, try_listed, try_gathered,
        ):  # fmt: skip
            with self.subTest(part.__doc__):
                part(offices)
