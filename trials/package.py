"""Package: it is made, and installed in a clean system, where the manual is carried out word by word.

The package is made twice, with the same bytes. Its man pages, completions and units are looked at by mandoc, bash, zsh,
fish and systemd-analyze. The clean system is made by debootstrap in a folder of its own, or TRIALS_ROOT is a folder
that debootstrap made before (with python3, curl, sqlite3 and openssl), of which a copy is taken. There every command of
the manual is carried out, from the one that installs the package on, with nothing but what that installed; then those
of the pages for the auditor, the engineer, several offices and the desk, and the desk around a server: the check, the
night, a command while it is stopped, and a copy that is put back. The package is removed again, which leaves the
vaults. systemd doesn't run in that system: its place is taken by a script that notes what it is asked. That needs root.
"""

import functools
import gzip
import os
import re
import shlex
import shutil
import subprocess

from trials.html_docs import check_pages
from trials.pages import printed_as_shown
from trials.parts.program import EXAMPLES, PROGRAM, TOP, Case, check, needs, ran_words, shared_folder
from trials.parts.clean_system import Root, needs_system, said
import desk_words

TAKES_LONG = True
INCLUDED = "python3,curl,sqlite3,openssl"
OTHER_PAGES = ("AUDITOR", "COURT", "formats/PROGRAM", "OFFICES", "ENGINEER")
STOP = """\
read -r server < /tmp/server
rm /tmp/server
kill "$server" || exit 0
for it in $(seq 100); do
    kill -0 "$server" 2> /tmp/gone || exit 0
    sleep 0.1
done
"""
# What stands for systemctl: the server is active while it runs, and enabled where a file says so.
SYSTEMCTL = """\
#!/bin/sh
case $1 in
is-active) if [ -e /tmp/server ]; then echo active; else echo inactive; fi ;;
is-enabled) if [ -e /tmp/enabled ]; then echo enabled; else echo disabled; fi ;;
show) echo 0 ;;
stop) echo "$*" >> /tmp/asked; [ ! -e /tmp/server ] || sh /tmp/stop ;;
*) echo "$*" >> /tmp/asked ;;
esac
"""
# What stands for the program where its calls are counted, and for timedatectl.
COUNTING = '#!/bin/sh\necho "$1" >> /tmp/calls\nexec /usr/bin/vaultctl "$@"\n'
SYNCHRONIZED = "#!/bin/sh\necho yes\n"
NIGHT = "vault-serve@records.service"
# How exposed each unit may be at most, as systemd-analyze counts it from 0 to 10, but for what carries out a command of
# the office, or sends mail.
MOST_EXPOSED = {
    "vault-serve@": 1.5, "vault-s3@": 1.5, "vault-health@": 1.5, "vault-follow@": 1.7, "vault-run@": 2.3, "vault-check@": 2.5,
    "vault-web@": 1.5, "vault-failed@": 10, "vault-due@": 10,
}  # fmt: skip
# Words of the desk up to the one that is completed, and what that may become.
DESK_COMPLETED = [
    (("vaultdesk", "re"), ["register", "release", "report", "restore", "retain"]),
    (("vaultdesk", "users", ""), ["list", "add", "password", "remove"]),
    (("vaultdesk", "rules", "add", "--n"), ["--noncurrent-days"]),
    (("vaultdesk", "retain", "--mode", ""), ["GOVERNANCE", "COMPLIANCE"]),
    (("vaultdesk", "callers", "--rights", "put", "del"), ["delete", "delete-version"]),
]


# ---- the package itself


@functools.cache
def packages():
    """The package and the archive, which come out with the same bytes a second time; and the folder with its files."""
    first, second, unpacked = (shared_folder() / it for it in ("first", "second", "unpacked"))
    for out in (first, second):
        said(TOP / "tools" / "packaging" / "package", PROGRAM, out)
    for it in first.iterdir():
        check(it.read_bytes() == (second / it.name).read_bytes(), f"{it.name} comes out otherwise a second time")
    (debian,) = first.glob("*.deb")
    (archive,) = first.glob("*.tar.gz")
    said("dpkg-deb", "-x", debian, unpacked)
    return debian, archive, unpacked


def zsh_completes(folder, typed, wanted):
    """zsh completes, on a terminal that its own module gives it."""
    script = (
        f"zmodload zsh/zpty; zpty shell zsh -f; zpty -w shell 'PROMPT=; fpath=({folder} $fpath); autoload -Uz compinit;"
        ' compinit -u -D; bindkey "^I" complete-word; zstyle ":completion:*" format "<%d>"; echo rea""dy\';'
        f" zpty -r -m shell t '*ready*' && zpty -w -n shell $'{typed}\\t'"
        f" && zpty -r -m shell t '*{wanted}*' && print -r -- $t;"
        " zpty -d shell"
    )
    ran = ran_words("zsh", "-fc", script, env={**os.environ, "TERM": "dumb"})
    check(wanted in ran.out, f"zsh says {ran}")


# ---- a clean system


class Installed(Root):
    """A clean system in which the package gets installed, and its server runs."""

    def serve(self, limit, door=""):
        """Serves the vault `records` as the vaults' user, under a limit of the shell."""
        words = f"{limit} exec vaultctl serve records.vault {self.port} {door}"
        (self.folder / "tmp/stop").write_text(STOP)
        self.run(
            f'cd /var/lib/vaultctl; runuser -u vaultctl -- sh -c "{words}" > /tmp/served 2>&1 & echo $! > /tmp/server;'
            f" {self.listens()}"
        )

    def listens(self):
        """Words of the shell that wait until something answers at the port."""
        asks = f"curl -s -o /tmp/answer http://127.0.0.1:{self.port}/"
        return f"for it in $(seq 300); do ! {asks} || break; sleep 0.2; done"

    def stop(self):
        """Stops the server, if one runs."""
        self.run("if [ -e /tmp/server ]; then sh /tmp/stop; fi")

    def asked(self):
        """What systemctl was asked to do since this was called last."""
        noted = self.folder / "tmp/asked"
        lines = noted.read_text().splitlines() if noted.exists() else []
        noted.unlink(missing_ok=True)
        return lines

    def program(self, name, text):
        """Puts a script in the place of a program, or takes it away again."""
        path = self.folder / "usr/local/bin" / name
        if text is None:
            path.unlink()
        else:
            path.write_text(text)
            path.chmod(0o755)

    def configure(self, vault, **members):
        """Writes the configuration of a vault, from the example and these members."""
        lines = [(TOP / "packaging" / "records.conf").read_text(), f"PORT={self.port}"]
        lines += [f"{name}='{value}'" for name, value in members.items()]
        (self.folder / "etc/vaultctl" / f"{vault}.conf").write_text("\n".join(lines) + "\n")

    def as_owner(self, words):
        return self.run(f"cd /var/lib/vaultctl; runuser -u vaultctl -- {words}")


def try_manual(root, debian):
    """The manual, word by word: it installs the package that lies in its folder."""
    beside = root.folder.parent / "delivered"
    beside.mkdir()
    shutil.copy(debian, beside)
    # What is recommended would be fetched from a mirror.
    (root.folder / "etc/apt/apt.conf.d/99trial").write_text('APT::Install-Recommends "0";\n')
    printed_as_shown("docs/MANUAL.md", root.folder, beside)
    root.run("dpkg -V vaultctl; ls /usr/share/vaultctl/vaultdesk/__pycache__/documents.*.pyc")
    check(root.run("stat -c '%U %G %a' /var/lib/vaultctl") == "vaultctl vaultctl 750\n", "the folder isn't the user's")
    check("Usage: vaultctl" in root.run("vaultctl --help", status=2), "the program doesn't run")


def try_others(root):
    """The pages for the auditor and the engineer, with a script in the place of systemctl."""
    root.program("systemctl", SYSTEMCTL)
    for page in OTHER_PAGES:
        printed_as_shown(f"docs/{page}.md", root.folder)
    units = ("vault-serve@records.service", "vault-check@records.timer", "vault-run@records.timer")
    asked = root.asked()
    check(asked == [f"enable --now {it}" for it in units], f"systemctl was asked {asked}")
    there = {it.name for it in (root.folder / "usr/lib/systemd/system").iterdir()}
    check({it.replace("@records", "@") for it in units} <= there, f"of the units there are {there}")


def try_desk(root):
    """The desk, a query and the page, as they are installed, by a user who is nobody."""
    script = (
        "cd /tmp/desk; vaultctl init y.vault;"
        " vaultctl replay y.vault < /usr/share/doc/vaultctl/examples/example-year.jsonl > replies;"
        " export VAULT=y.vault VAULT_CALLER=ann; printf 'one two\\n' > in; vaultdesk put letters 'a \"b\"' in > id;"
        " vaultdesk get letters 'a \"b\"' out; cmp in out; vaultdesk ls letters | grep -q 'a \"b\"$';"
        " vaultdesk hold letters 'a \"b\"' --as gov | grep -q ON;"
        " vaultdesk page > page.html; grep -q '</html>' page.html;"
        " vaultdesk history 2 | grep -q admitted; vaultdesk find --held | grep -q letters; vaultdesk seal > seal;"
        " sqlite3 -readonly y.vault < /usr/share/vaultctl/queries/due.sql > due; vaultdesk --version > version"
    )
    root.run(f"mkdir -m 777 /tmp/desk; runuser -u nobody -- sh -euc {shlex.quote(script)}")
    version = (root.folder / "tmp/desk/version").read_text()
    check(version == f"vaultdesk {(TOP / 'packaging/VERSION').read_text()}", f"the desk's version is {version}")
    owners = {it.owner() for it in (root.folder / "usr/share/vaultctl").rglob("*.pyc")}
    check(owners == {"root"}, f"byte code beside the desk's modules is of {owners}")


def try_check(root):
    """The check of a server: it says what is wrong, and where it can't look."""
    root.configure("records")
    root.serve("")
    root.run("vaultdesk check records")
    check(root.asked() == [], "a server that answers is started anew")
    check("no vault has the name recrods" in root.run("vaultdesk check recrods", status=1), "a name without a vault")
    root.stop()
    check(root.run("vaultdesk check records") == "", "a server that isn't to run isn't passed over")
    root.run("touch /tmp/enabled")
    says = root.run("vaultdesk check records", status=1)
    check("is enabled and doesn't run" in says, f"of a server that is enabled and is down is said {says}")
    root.run("mkdir -p /run/vaultctl; flock /run/vaultctl/records.lock vaultdesk check records")
    root.run("rm /tmp/enabled; echo 1 > /tmp/server")
    says = root.run("vaultdesk check records", status=1)
    check("no answer" in says, f"of a server that doesn't answer is said {says}")
    root.run(
        f"cd /tmp; python3 -m http.server {root.port} --bind 127.0.0.1 > /tmp/other 2>&1 & echo $! > /tmp/other.pid;"
        f" {root.listens()}"
    )
    says = root.run("vaultdesk check records", status=1)
    root.run("kill $(cat /tmp/other.pid); rm /tmp/server")
    check("isn't its server" in says, f"of another program at the port is said {says}")


def try_locked(root):
    """A vault whose last change is dated ahead serves nobody, and the check and the night say so."""
    ahead = root.run("date -u -d '+2 days' +%Y-%m-%dT%H:%M:%SZ").strip()
    root.run("cp -p /var/lib/vaultctl/records.vault* /tmp")
    root.as_owner(f"vaultctl dept records.vault ahead --as registrar --at {ahead}")
    root.serve("")
    says = root.run("vaultdesk check records", status=1)
    check("nobody is served (503 ClockBack)" in says, f"of a vault that is dated ahead the check says {says}")
    root.stop()
    says = root.run("vaultdesk night records", status=1)
    check("is before the vault's last change" in says and "marked" not in says, f"a vault dated ahead: {says}")
    root.run("cp -p /tmp/records.vault* /var/lib/vaultctl")
    root.asked()


def try_backup(root):
    """A copy is its owner's alone, and sound, also one that is made while the vault is served."""
    backup = "cd /var/lib/vaultctl; vaultdesk backup records.vault /tmp/copies"
    root.serve("")
    copy = root.run(backup).strip()
    check(root.run(f"vaultctl verify {copy}") == "sound\n", f"{copy}, which is made while it is served, isn't sound")
    root.stop()
    copy = root.run(f"sleep 1; {backup}").strip()
    for it in root.run(f"stat -c '%U %a' /tmp/copies {copy}*").splitlines():
        check(it in ("vaultctl 600", "vaultctl 700"), f"a copy that root has made, or its folder, is {it}")
    for it in root.run("stat -c '%U' /var/lib/vaultctl/records.vault*").splitlines():
        check(it == "vaultctl", f"a file beside the vault is {it}'s, after root has made a copy")
    root.asked()


def try_night(root):
    """The night's work on a vault with two departments: it stops a server that takes no lines, and no other."""
    night = "vaultdesk night records"
    root.as_owner("vaultctl dept records.vault court --as registrar")
    root.as_owner("vaultctl bucket records.vault cases court --as registrar")
    root.as_owner("vaultctl caller records.vault night-court run --dept court --as registrar")
    root.configure("records", BUCKETS="drafts cases:night-court")
    root.serve("")
    says = root.run(night, status=1)
    check("isn't synchronized" in says and "marked" not in says, f"a clock that nobody has set: {says}")
    asked = root.asked()
    check(asked == [f"stop {NIGHT}", f"reset-failed {NIGHT}", f"start {NIGHT}"], f"systemctl was asked {asked}")
    root.run("install -d -o vaultctl -g vaultctl -m 750 /run/vaultctl/records")
    root.serve("", "--lines /run/vaultctl/records/lines")
    root.program("timedatectl", SYNCHRONIZED)
    root.program("vaultctl", COUNTING)
    root.run("rm -f /tmp/calls; touch /tmp/calls; chmod 666 /tmp/calls")
    says = root.run(night)
    root.program("vaultctl", None)
    check(says.count(": 0 marked, 0 removed, 0 lone markers") == 2, f"the night says {says}")
    calls = (root.folder / "tmp/calls").read_text().split()
    check(calls == ["verify"], f"the night calls the program to {calls}")
    check(root.asked() == [], "the night stops a server that takes lines")
    (copy,) = re.findall(r"^/var/backups/vaultctl/records-.*$", says, re.M)
    check(says.count("\nsha256: ") == 1, f"the night says no seal: {says}")
    found = root.run(f"vaultctl verify {copy}; stat -c '%U %a' {copy}; stat -c %U /var/lib/vaultctl/records.night")
    check(found == "sound\nvaultctl 600\nvaultctl\n", f"of {copy} and the night's mark there is {found}")
    root.configure("records", BUCKETS="drafts cases")
    says = root.run(f"sleep 1; {night}", status=1)
    is_partly_done = "the rules of cases weren't carried out" in says and says.count(" marked, ") == 1
    check(is_partly_done, f"by a caller of one department: {says}")
    root.configure("records", BUCKETS="drafts *")
    check("BUCKETS has *" in root.run(f"sleep 1; {night}", status=1), "what isn't a bucket is passed on")
    root.stop()
    root.asked()


def try_kept(root):
    """KEEP copies stay, the newest; what isn't a copy of this vault stays too. Out of memory is said beforehand."""
    root.configure("records", KEEP=2)
    folder = "/var/backups/vaultctl"
    others = ["records-2-20200101T000000Z.vault", "records-20200101T000000Z.vault.damaged", "records-old.vault"]
    old = [f"records-20200{it}01T000000Z.vault" for it in (1, 2, 3)]
    root.run(f"rm -f {folder}/*; cd {folder}; touch {' '.join([*others, *old])} {old[0]}-wal; chown vaultctl: *")
    # The system of the trial shares no /proc: in its place stands what a machine with little memory says.
    (root.folder / "proc/meminfo").write_text("MemAvailable:          0 kB\n")
    root.run("printf hello > /tmp/hello; chmod 644 /tmp/hello")
    root.as_owner("vaultctl caller records.vault ann put get --dept records --as registrar")
    root.as_owner("vaultdesk put drafts k /tmp/hello --vault records.vault --as ann")
    says = root.run("vaultdesk night records")
    (root.folder / "proc/meminfo").unlink()
    warning = "warning: the vault holds 5 bytes, and 0 bytes of memory are free"
    check(warning in says, f"with no memory the night says {says}")
    there = {it.name for it in (root.folder / folder.lstrip("/")).iterdir()}
    kept = {it for it in there if not it.endswith("-wal")} - set(others)
    check(set(others) <= there and len(kept) == 2 and old[2] in kept, f"of the copies there are {there}")
    check(f"{old[0]}-wal" not in there, "a log stays without its copy")


def try_jump(root):
    """A clock that stands far past all that is known carries out nothing, until somebody says that it is right."""
    before = root.run("date -u -d '-3 days' +%Y-%m-%dT%H:%M:%SZ").strip()
    root.as_owner("vaultctl init quiet.vault")
    root.as_owner(f"vaultctl dept quiet.vault records --as registrar --at {before}")
    root.as_owner(f"vaultctl bucket quiet.vault drafts records --as registrar --at {before}")
    root.as_owner(f"vaultctl caller quiet.vault night run --dept records --as registrar --at {before}")
    root.configure("quiet")
    night, done = "vaultdesk night", "drafts: 0 marked"
    says = root.run(f"{night} quiet", status=1)
    check("is more than 2 days past" in says and done not in says, f"three days later the night says {says}")
    root.configure("quiet", MAX_JUMP=4)
    check(done in root.run(f"sleep 1; {night} quiet"), "a jump that the configuration allows is refused")
    root.run("rm /var/lib/vaultctl/quiet.night; sleep 1")
    root.configure("quiet")
    check(done in root.run(f"{night} --clock-is-right quiet"), "somebody says that the clock is right, and isn't heard")
    root.run("sleep 1")
    check(done in root.run(f"{night} quiet"), "the night after one that was right is refused")
    root.program("timedatectl", None)
    root.configure("quiet", TRUST_CLOCK="yes")
    root.run("sleep 1")
    check(done in root.run(f"{night} quiet"), "a clock that the configuration trusts is refused")
    root.asked()


def try_offline(root):
    """A command while the server is stopped: as the vaults' user, with the caller's input, and with its status."""
    root.configure("records")
    root.serve("")
    says = root.run("echo hello | vaultdesk offline records sh -c 'cat; id -un; pwd; id -Gn; umask; exit 7'", status=7)
    check(says == "hello\nvaultctl\n/var/lib/vaultctl\nvaultctl\n0077\n", f"a command of offline says {says}")
    asked = root.asked()
    check(asked == [f"stop {NIGHT}", f"reset-failed {NIGHT}", f"start {NIGHT}"], f"systemctl was asked {asked}")
    says = root.run("vaultdesk offline records vaultctl dept records.vault offline --as registrar")
    check(says == '{"ok":{}}\n' and root.asked() == [], f"a server that didn't run is started, or it says {says}")


def try_restore(root):
    """A copy that root puts back is the vaults' user's; one that isn't sound changes nothing."""
    where = "/var/lib/vaultctl/records.vault"
    copy = root.run(f"vaultdesk backup {where} /tmp/copies").strip()
    root.as_owner("vaultctl dept records.vault later --as registrar")
    before = root.run(f"cat {where} {where}-wal | sha256sum")
    root.run("echo no vault > /tmp/none")
    says = root.run("vaultdesk restore records /tmp/none", status=1)
    after = root.run(f"cat {where} {where}-wal | sha256sum")
    check("isn't sound" in says and before == after and root.asked() == [], f"of what isn't a vault is said {says}")
    root.serve("")
    root.run(f"touch {where}-shm")
    says = root.run(f"vaultdesk restore records {copy}")
    asked = root.asked()
    check(asked == [f"stop {NIGHT}", f"reset-failed {NIGHT}", f"start {NIGHT}"], f"systemctl was asked {asked}")
    for it in root.run(f"stat -c '%U %a' {where}*").splitlines():
        check(it == "vaultctl 600", f"what was put back is {it}")
    check(not (root.folder / f"{where.lstrip('/')}-shm").exists(), "the index of the old log stays")
    names = root.run(f"sqlite3 -readonly {where} 'SELECT name FROM departments' ")
    check("offline" in names and "later" not in names, f"what was put back has the departments {names}")
    away = re.search(r"what stood there is in (\S+)", says)[1]
    check(root.run(f"vaultctl verify {away}/records.vault") == "sound\n", f"what stood there isn't in {away}")
    check(root.run(f"stat -c '%U %a' {away}") == "vaultctl 700\n", f"{away} isn't the vaults' user's alone")


def try_users(root):
    """A user whom nginx is to let in, beside the callers of a vault."""
    root.run("mkdir -p /etc/nginx; printf 'a long one\\n' | vaultdesk users add /etc/nginx/vault.users ann")
    check(root.run("stat -c '%U %G %a' /etc/nginx/vault.users") == "root www-data 640\n", "nginx can't read its users")
    says = root.run("cd /var/lib/vaultctl; vaultdesk users list /etc/nginx/vault.users --vault records.vault")
    check("ann" in says and "registrar" in says, f"of the users is said {says}")


def try_full_disk(root):
    """A server whose disk is full refuses what it can't keep and goes on: it may write no file beyond some blocks. The
    check says so until it is started anew by somebody."""
    root.run(
        "rm -f /tmp/asked; cd /var/lib/vaultctl;"
        " runuser -u vaultctl -- vaultctl caller records.vault bob put get --dept records --as registrar"
    )
    root.run("install -d -o vaultctl -g vaultctl -m 750 /run/vaultctl/records")
    root.serve("trap '' XFSZ; ulimit -f 2000;", "--lines /run/vaultctl/records/lines")
    root.run("vaultdesk check records")
    told = root.run(
        "head -c 400000 /dev/zero > /tmp/large;"
        " for it in 1 2 3 4 5 6; do curl -s -o /dev/null -w '%{http_code} ' -X PUT"
        f" -H 'x-vault-caller: bob' --data-binary @/tmp/large http://127.0.0.1:{root.port}/drafts/$it; done"
    )
    check(told.startswith("200 ") and "500 " in told, f"puts on a full disk are answered {told}")
    says = root.run("vaultdesk check records", status=1)
    wanted = "failed [a-z0-9 ]+ since the server was started.* the disk works and has room; then start the server anew"
    check(re.search(wanted, says), f"of a server whose disk is full the check says {says}")
    check(root.asked() == [], "a server whose disk is full is started anew, though it goes on")
    root.stop()
    root.run("vaultctl verify /var/lib/vaultctl/records.vault")


def remove(root):
    link = "/etc/systemd/system/multi-user.target.wants/vault-serve@a.service"
    root.run(f"mkdir -p $(dirname {link}); ln -s nothing {link}")
    root.run("dpkg -r vaultctl; dpkg -P vaultctl")
    root.run("test -f /var/lib/vaultctl/records.vault; test ! -e /usr/bin/vaultctl; test ! -e /usr/bin/vaultdesk")
    root.run(f"test ! -e /usr/share/vaultctl; test -f /etc/vaultctl/records.conf; test ! -L {link}")


# In their order: each goes on with what those before it left.
PARTS = (
    try_others, try_desk, try_check, try_locked, try_backup, try_night, try_kept, try_jump, try_offline, try_restore,
    try_users, try_full_disk, remove,
)  # fmt: skip


class Files(Case):
    """The package itself."""

    def setUp(self):
        super().setUp()
        self.debian, self.archive, self.unpacked = packages()

    def unpacked_program(self, found):
        """The line of a unit that names a program, where it is unpacked; one of the system stays where it is."""
        ours = self.unpacked / found[2].lstrip("/")
        return f"{found[1]}{ours}" if ours.exists() else found[0]

    def test_recommended(self):
        recommended = said("dpkg-deb", "-f", self.debian, "Recommends")
        self.assertIn("python3-openpyxl", recommended, "nothing brings what xlsx needs")
        self.assertIn("python3-crcmod", recommended, "nothing brings what makes checksums quick")

    def test_archive(self):
        """The archive has the same files as the package."""
        said("tar", "-xzf", self.archive, "-C", self.folder)
        (top,) = self.folder.glob("vaultctl-*")
        said("diff", "-r", "--no-dereference", top, self.unpacked)

    def test_man_pages(self):
        pages = sorted((self.unpacked / "usr/share/man").glob("man*/*"))
        commands = re.findall(r"^!   ([a-z]+)  ", (EXAMPLES / "help.txt").read_text(), re.M)
        names = {it.name.removesuffix(".1.gz") for it in pages}
        check({f"vaultctl-{it}" for it in commands} < names, f"of {commands} there are the pages {names}")
        wanted = {"vaultdesk", *("-".join(it.words) for it in desk_words.desk().kinds)}
        check(wanted < names and len(wanted) > 20, f"of the desk's pages there aren't {wanted - names}")

    @needs("mandoc")
    def test_mandoc(self):
        for page in sorted((self.unpacked / "usr/share/man").glob("man*/*")):
            text = gzip.decompress(page.read_bytes())
            ran = subprocess.run(["mandoc", "-Tlint", "-W", "warning"], input=text, capture_output=True)
            check((ran.returncode, ran.stdout) == (0, b""), f"of {page.name} mandoc says {ran.stdout}")

    def test_bash(self):
        folder = self.unpacked / "usr/share/bash-completion/completions"
        asked = '. "$1/$2"; shift; COMP_WORDS=("$@"); COMP_CWORD=$(($# - 1)); _$1; echo "${COMPREPLY[*]}"'

        def completed(*words):
            return said("bash", "-c", asked, "bash", folder, *words).split()

        check(completed("vaultctl", "re") == ["report", "register", "replay"], f"bash: {completed('vaultctl', 're')}")
        rights = completed("vaultctl", "caller", "f", "ann", "del")
        check(rights == ["delete", "delete-version"], f"bash: {rights}")
        check("--count" in completed("vaultctl", "serve", "-"), "bash completes no option")
        for words, wanted in DESK_COMPLETED:
            check(set(wanted) <= set(completed(*words)), f"bash: {words}: {completed(*words)}")

    @needs("fish")
    def test_fish(self):
        fish = self.unpacked / "usr/share/fish/vendor_completions.d"
        ours = [(("vaultctl", "re"), ["report", "replay"]), (("vaultctl", "serve", "--"), ["--count"])]
        for words, wanted in [*ours, *DESK_COMPLETED]:
            completed = said("fish", "-c", f"source {fish}/{words[0]}.fish; complete -C '{' '.join(words)}'")
            found = {it.split("\t")[0] for it in completed.splitlines()}
            check(set(wanted) <= found, f"fish: {words}: {found}")

    @needs("systemd-analyze")
    def test_units(self):
        """systemd-analyze finds nothing to say of the units, with the programs where they are unpacked."""
        units = self.folder / "units"
        units.mkdir()
        for unit in sorted((self.unpacked / "usr/lib/systemd/system").iterdir()):
            text = re.sub(r"^(Exec\w+=\+?)(/usr/\S+)", self.unpacked_program, unit.read_text(), flags=re.M)
            (units / unit.name).write_text(text)
        for unit in sorted(units.iterdir()):
            ran = subprocess.run(["systemd-analyze", "verify", unit], capture_output=True, text=True)
            # the manual pages that the units name aren't installed here
            ours = [it for it in ran.stderr.splitlines() if "vault-" in it and "Command 'man " not in it]
            check(ours == [], f"{unit.name}: {ours}")

    @needs("systemd-analyze")
    def test_units_are_shut_in(self):
        units = {it.name.partition("@")[0] + "@": it for it in (self.unpacked / "usr/lib/systemd/system").glob("*.service")}
        check(units.keys() == MOST_EXPOSED.keys(), f"there are the units {units}")
        for name, unit in units.items():
            says = said("systemd-analyze", "security", "--offline=yes", "--no-pager", unit)
            found = float(re.search(r"Overall exposure level for .*: ([0-9.]+) ", says)[1])
            check(found <= MOST_EXPOSED[name], f"{name} is exposed by {found}: {says}")

    def test_html(self):
        check_pages(self.unpacked / "usr/share/doc/vaultctl/html")

    @needs("zsh")
    def test_zsh(self):
        folder = self.unpacked / "usr/share/zsh/vendor-completions"
        zsh_completes(folder, "vaultctl cert", "certificate ")
        zsh_completes(folder, "vaultdesk offices reg", "registers ")


class InCleanSystem(Case):
    @needs_system
    def test_installed(self):
        self.folder.chmod(0o755)
        root = Installed(self.folder / "root", INCLUDED)
        self.addCleanup(root.stop)
        debian, _, _ = packages()
        try_manual(root, debian)
        for part in PARTS:
            with self.subTest(part.__doc__ or part.__name__):
                part(root)
