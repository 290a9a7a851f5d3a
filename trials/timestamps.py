"""Timestamps: seals that an authority stamps, as docs/ENGINEER.md says, and what a stamp lets pass.

The authority is one of openssl's own: a certificate that may stamp, signed by a root, and a server at a free port of
127.0.0.1 that answers queries as RFC 3161 has them. The commands are those of the page, with the authority's address
in the place of the page's. A stamp of the seals of a vault is right; it isn't of seals in which a digit differs, of
another authority's root, or with a moment that was altered in it.
"""

import contextlib
import http.server
import pathlib
import re
import threading
from typing import Iterator

from trials.boxes import shown
from trials.parts.program import CONTRIB, Case, Ran, check, needs, ran_words

# The commands of the page: of the day, those that ask for a stamp, and the one that looks at it.
COMMANDS = shown("ENGINEER", "day=$(date -u +%Y%m%d)").strip().splitlines()
ADDRESS = "https://tsa.example.org/"
FORM = "application/timestamp-query"
CONFIGURATION = """\
[tsa]
default_tsa = own
[own]
serial = serial
crypto_device = builtin
signer_cert = tsa.pem
certs = root.pem
signer_key = tsa.key
signer_digest = sha256
default_policy = 1.2.3.4.1
digests = sha256
accuracy = secs:1
ordering = yes
"""


def done(words: list[str], folder: pathlib.Path) -> None:
    ran = ran_words(*words, cwd=folder)
    check(ran.status == 0, f"{words}: {ran}")


def make_authority(folder: pathlib.Path, name: str) -> None:
    """A root, and a certificate signed by it that may stamp."""
    key = ["openssl", "req", "-x509", "-newkey", "ec", "-pkeyopt", "ec_paramgen_curve:P-256", "-noenc", "-days", "30"]
    done([*key, "-subj", f"/CN=root of {name}", "-keyout", "root.key", "-out", "root.pem"], folder)
    signed = ["-CA", "root.pem", "-CAkey", "root.key", "-addext", "extendedKeyUsage=critical,timeStamping"]
    done([*key, "-subj", f"/CN={name}", "-keyout", "tsa.key", "-out", "tsa.pem", *signed], folder)
    (folder / "serial").write_text("01\n")
    (folder / "authority.conf").write_text(CONFIGURATION)


class Authority(http.server.BaseHTTPRequestHandler):
    """Answers a query for a stamp."""

    folder: pathlib.Path

    def do_POST(self) -> None:
        query = self.rfile.read(int(self.headers["Content-Length"]))
        check(self.headers["Content-Type"] == FORM, f"a query of the type {self.headers['Content-Type']}")
        (self.folder / "query").write_bytes(query)
        words = ["openssl", "ts", "-reply", "-config", "authority.conf", "-queryfile", "query", "-out", "reply"]
        done(words, self.folder)
        self.send_response(200)
        self.end_headers()
        self.wfile.write((self.folder / "reply").read_bytes())

    def log_message(self, format: str, *args: object) -> None:
        """Nothing is said of a request."""


@contextlib.contextmanager
def served(folder: pathlib.Path) -> Iterator[str]:
    """The address of an authority whose keys are in a folder."""
    handler = type("Served", (Authority,), {"folder": folder})
    with http.server.HTTPServer(("127.0.0.1", 0), handler) as server:
        threading.Thread(target=server.serve_forever, daemon=True).start()
        yield f"http://127.0.0.1:{server.server_address[1]}/"
        server.shutdown()


def exchange(path: pathlib.Path, old: bytes, new: bytes) -> bytes:
    """Exchanges bytes of a file, which has them; what it was."""
    before = path.read_bytes()
    check(old in before and len(old) == len(new), f"{path.name} hasn't {old!r}")
    path.write_bytes(before.replace(old, new))
    return before


@needs("openssl", "curl")
class Timestamps(Case):
    def setUp(self) -> None:
        super().setUp()
        self.office, self.one, self.other = (self.folder / it for it in ("office", "one", "other"))
        for it in (self.office, self.one, self.other):
            it.mkdir()
        make_authority(self.one, "an authority")
        make_authority(self.other, "another authority")
        file = self.office / "records.vault"
        self.printed("init", file)
        self.printed("replay", file, given=(CONTRIB / "example-year.jsonl").read_bytes())
        seals = ran_words(CONTRIB / "vault-recheck", "seal", file).out
        self.assertTrue(seals.startswith("before: "), seals)
        (self.office / "records.seals").write_text(seals)

    def shell(self, words: str) -> Ran:
        return ran_words("sh", "-c", words, cwd=self.office)

    def passes(self, looks: str, root: pathlib.Path) -> bool:
        """Whether openssl takes the stamp for one of these seals by the root of that authority."""
        (self.office / "tsa-root.pem").write_bytes((root / "root.pem").read_bytes())
        ran = self.shell(looks)
        return ran.status == 0 and "Verification: OK" in ran.out + ran.err

    def test_stamps(self) -> None:
        (self.office / "tsa-root.pem").write_bytes((self.one / "root.pem").read_bytes())
        day, *asks, looks = COMMANDS
        with served(self.one) as address:
            ran = self.shell("\n".join(["set -e", day, *asks]).replace(ADDRESS, address))
            check(ran.status == 0, f"no stamp: {ran}")
        [stamp], [sealed] = self.office.glob("*.tsr"), self.office.glob("records-*.seals")
        looks = f"day={sealed.stem.removeprefix('records-')}\n{looks}"
        check(self.passes(looks, self.one), f"{looks}: the stamp isn't right: {self.shell(looks)}")
        before = exchange(sealed, b"entries: 15", b"entries: 14")
        check(not self.passes(looks, self.one), "other seals pass by this stamp")
        sealed.write_bytes(before)
        [moment] = set(re.findall(rb"\x18\x0f(20\d{12}Z)", stamp.read_bytes()))
        before = exchange(stamp, moment, b"2014" + moment[4:])
        check(not self.passes(looks, self.one), "a stamp passes whose moment was altered")
        stamp.write_bytes(before)
        check(not self.passes(looks, self.other), "a stamp passes by the root of another authority")
        check(self.passes(looks, self.one), "the stamp isn't right any more")
