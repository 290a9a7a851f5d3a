"""Units: a systemd of its own carries out the package's units in a clean system, which systemd-nspawn starts.

The package of the program is installed in a clean system, which debootstrap makes or which is a copy of TRIALS_ROOT
(with python3, curl, sqlite3, systemd-sysv and dbus). That system is booted with no network but its own loopback. In it
a vault is made as docs/ENGINEER.md says, its units are enabled, and then:

  - a name without a vault fails as it is started
  - a start is done once the server answers as the user vaultctl, shut in; killed, it is started again
  - a start is done once the door for lines is there, for the group that is named and nobody else
  - starts by hand are never used up, and after a stop by a line, or by a kill, the newest change is in the file itself
  - a command is run while the server is stopped, and a vault that root makes so is the server's
  - the check runs by its timer, and leaves a server alone that answers; one that answers 500 it has started anew; one
    that is enabled and doesn't run it reports
  - the night does nothing by a clock that isn't synchronized; while the server goes on it carries out the rules, copies
    the vault, audits the copy and makes a seal
  - the gateway for clients of S3 answers before the server, and opens no vault
  - a vault that isn't sound is given up after five starts, which is reported; the copy is put back by root and served
  - a second boot serves it by itself; with the package the server goes, and comes again

That needs root.
"""

import os
import subprocess

from trials.parts.clean_system import Root, needs_system, said
from trials.parts.program import PROGRAM, TOP, Case, check, needs

TAKES_LONG = True
INCLUDED = "python3,curl,sqlite3,systemd-sysv,dbus"
BOOT_LIMIT = 3600  # seconds

UNIT = """\
[Unit]
After=multi-user.target
[Service]
Type=oneshot
Environment=LANG=C.UTF-8
ExecStart=/bin/sh /trial/script
StandardOutput=append:/trial/told
StandardError=append:/trial/told
[Install]
WantedBy=multi-user.target
"""

HEAD = """\
server=vault-serve@records.service
url=http://127.0.0.1:8080
as='runuser -u vaultctl -- vaultctl'
cd /var/lib/vaultctl
trap 'systemctl --no-block start poweroff.target' EXIT
tell() { echo "trial: $*"; }
fail() { tell "wrong: $*"; systemctl status --no-pager "$server"; exit 1; }
pid() { systemctl show -P MainPID "$server"; }
status() { curl -s -o /trial/body -w '%{http_code}' -H 'x-vault-caller: ann' "$@" || true; }
is() { [ "$1" = "$2" ] || fail "$3: $1, and not $2"; }
until_not() { for it in $(seq 240); do [ "$(pid)" != "$1" ] && [ "$(pid)" != 0 ] && return; sleep 0.5; done; fail "not started anew"; }
until_served() { for it in $(seq 240); do [ "$(systemctl is-active "$server")" = active ] && return; sleep 0.5; done; fail "not served"; }
until_there() { for it in $(seq 240); do [ -e "$1" ] && return; sleep 0.5; done; fail "no $1"; }
log_of() { journalctl --no-pager -o cat -u "$1"; }
"""

MADE = """\
cp /usr/share/doc/vaultctl/examples/records.conf /etc/vaultctl/records.conf
echo "ALARM='cat > /trial/alarm.\\$UNIT'" >> /etc/vaultctl/records.conf
$as init records.vault
$as dept records.vault records --as registrar
$as bucket records.vault drafts records --as registrar
$as caller records.vault night run --dept records --as registrar
$as caller records.vault ann put get --dept records --as registrar
systemctl enable --now vault-serve@records.service
is "$(status -X PUT --data hello $url/drafts/d)" 200 "a put as soon as the start is done"
systemctl enable --now vault-check@records.timer
systemctl enable --now vault-run@records.timer
tell "made, and served"
"""

NAMES = """\
for it in vault-serve@recrods.service vault-check@recrods.timer vault-run@recrods.timer; do
    ! systemctl enable --now "$it" || fail "$it is enabled without a word"
    systemctl disable "$it"
done
for it in vault-check@recrods.service vault-run@recrods.service; do
    ! systemctl start "$it" || fail "$it is started without a word"
    is "$(systemctl is-failed "$it")" failed "$it"
    systemctl reset-failed "$it"
done
cp /etc/vaultctl/records.conf /etc/vaultctl/empty.conf
! systemctl start vault-serve@empty.service || fail "a configuration without a vault is started without a word"
rm /etc/vaultctl/empty.conf
tell "a name without a vault fails"
"""

SHUT_IN = """\
served=$(pid)
is "$(stat -c %U /proc/$served)" vaultctl "the server's user"
is "$(awk '/^CapEff/ { print $2 }' /proc/$served/status)" 0000000000000000 "what the server may do beyond its user"
is "$(awk '/^NoNewPrivs/ { print $2 }' /proc/$served/status)" 1 "whether it may become more"
is "$(systemctl show -P OOMScoreAdjust "$server")" -500 "when the kernel takes it where memory runs out"
is "$(systemctl show -P Wants "$server" | grep -o 'time-sync.target')" time-sync.target "what comes first"
case $(systemctl show -P After "$server") in *time-sync.target*) ;; *) fail "the time doesn't come first" ;; esac
tell "security: $(systemd-analyze security --no-pager $server | tail -n 1)"

kill -9 "$served"
until_not "$served"
until_served
is "$(status $url/drafts/d)" 200 "a get after a kill"
is "$(cat /trial/body)" hello "what was put"
tell "killed, and started again"
"""

BY_HAND = """\
for it in 1 2 3 4 5 6 7; do
    systemctl stop "$server"
    $as caller records.vault c$it put get --dept records --as registrar
    systemctl start "$server" || fail "start $it by hand"
done
is "$(status $url/drafts/d)" 200 "a get after seven starts by hand"
tell "seven starts by hand"
"""

LINES = """\
door=/run/vaultctl/records
[ -S $door/lines ] || fail "a start is done without the door for lines"
is "$(stat -c '%U %G %a' $door)" "vaultctl vaultctl 750" "who may enter the folder of the door"
is "$(vaultdesk get drafts d --vault records --as ann)" hello "what root reads while it is served"
useradd ann; useradd --groups vaultctl bea
! runuser -u ann -- vaultdesk get drafts d --vault records --as ann || fail "somebody of no group reads"
runuser -u bea -- vaultdesk get drafts d --vault records --as ann | grep -q hello || fail "who is of the group reads nothing"
! runuser -u bea -- vaultdesk find --vault records || fail "who is of the group reads the tables"
groupadd registrars
usermod --append --groups registrars ann
echo LINES_GROUP=registrars >> /etc/vaultctl/records.conf
systemctl restart "$server"
is "$(stat -c '%U %G %a' $door)" "vaultctl registrars 750" "who may enter the folder of another group"
runuser -u ann -- vaultdesk get drafts d --vault records --as ann | grep -q hello || fail "the other group reads nothing"
! runuser -u bea -- vaultdesk get drafts d --vault records --as ann || fail "who is of the first group still reads"
is "$(vaultdesk find d --vault records | wc -l)" 2 "what is found in the tables of a vault that is served"
tell "lines, for who is of the group"
"""

GATEWAY = """\
cp /usr/share/doc/vaultctl/examples/s3.toml /etc/vaultctl/records.s3.toml
! systemctl start vault-s3@records.service || fail "a gateway without keys is started"
install -o vaultctl -g vaultctl -m 600 /dev/null /etc/vaultctl/records.keys.toml
vaultdesk s3 key add ann --settings /etc/vaultctl/records.s3.toml > /trial/key
is "$(stat -c '%U %a' /etc/vaultctl/records.keys.toml)" "vaultctl 600" "the owner of the keys"
systemctl start vault-s3@records.service
gateway() { systemctl show -P MainPID vault-s3@records.service; }
for it in $(seq 240); do log_of vault-s3@records | grep -q '^serving ' && break; sleep 0.5; done
is "$(curl -s -o /trial/body -w '%{http_code}' http://127.0.0.1:9000/drafts/d)" 403 "an unsigned request"
is "$(stat -c %U /proc/$(gateway))" vaultctl "the gateway's user"
is "$(ls -l /proc/$(gateway)/fd | grep -c vault$ || true)" 0 "the vaults that the gateway has open"
is "$(status $url/drafts/d)" 200 "a get beside the gateway"
systemctl stop vault-s3@records.service
tell "the gateway before the server"
"""

STOPPED = """\
is "$(status -X PUT --data last $url/drafts/last)" 200 "the last put before a stop"
systemctl stop "$server"
alone() { sqlite3 "file:records.vault?immutable=1" "SELECT count(*) FROM entries WHERE key = 'last'"; }
is "$(alone)" 1 "the last put in the file alone, after a stop"
log_of "$server" | grep -q '^sound$' && fail "a stop by a line is followed by an audit"
systemctl start "$server"
is "$(status -X PUT --data last $url/drafts/last)" 200 "the last put before a kill"
echo ADMIN=ann >> /etc/vaultctl/records.conf # who hasn't the right
systemctl stop "$server"
is "$(alone)" 2 "the last put in the file alone, after a kill"
log_of "$server" | grep -q '^sound$' || fail "a kill is followed by no audit"
sed -i /^ADMIN=/d /etc/vaultctl/records.conf
systemctl start "$server"
tell "after a stop all is in the file"
"""

OFFLINE = """\
is "$(echo hello | vaultdesk offline records cat)" hello "what a command is given"
is "$(vaultdesk offline records id -un)" vaultctl "who does a command"
code=0; vaultdesk offline records sh -c 'exit 7' || code=$?
is "$code" 7 "the status of a command"
is "$(status $url/drafts/d)" 200 "a get after a command that failed"
sed 's/8080/8081/' /etc/vaultctl/records.conf > /etc/vaultctl/other.conf
vaultdesk offline other vaultctl init other.vault
systemctl start vault-serve@other.service || fail "a vault that root made isn't served: $(log_of vault-serve@other)"
systemctl stop vault-serve@other.service
rm other.vault* /etc/vaultctl/other.conf
tell "commands while it is stopped"
"""

CHECKED = """\
ran() { systemctl show -P ExecMainExitTimestampMonotonic vault-check@records.service; }
for it in $(seq 600); do [ "$(ran)" != 0 ] && break; sleep 1; done
is "$(ran | sed 's/^[1-9].*/ran/')" ran "the check by its timer"
is "$(systemctl show -P Result vault-check@records.service)" success "the check: $(log_of vault-check@records)"
served=$(pid)
systemctl start vault-check@records.service
is "$(pid)" "$served" "the server after a check"
tell "checked by the timer, and left as it was"
systemctl stop vault-check@records.timer # which would be faster than this trial

mkdir /etc/systemd/system/$server.d
printf '[Service]\\nExecStart=\\nExecStart=/usr/bin/python3 /trial/failing\\n' > /etc/systemd/system/$server.d/failing.conf
systemctl daemon-reload
systemctl restart "$server"
is "$(status $url/drafts/d)" 500 "a server whose file failed"
served=$(pid)
systemctl start vault-check@records.service || fail "the check: $(log_of vault-check@records)"
[ "$(pid)" != "$served" ] || fail "not started anew"
is "$(status $url/drafts/d)" 403 "the server that was started anew"
tell "started anew where it answers 500"
rm -r /etc/systemd/system/$server.d
systemctl daemon-reload

systemctl stop "$server"
! systemctl start vault-check@records.service || fail "a server that is enabled and doesn't run is passed over"
until_there /trial/alarm.vault-check@records
grep -q "is enabled and doesn't run" /trial/alarm.vault-check@records || fail "the alarm: $(cat /trial/alarm.*)"
systemctl start "$server"
tell "reported where it is enabled and doesn't run"
"""

NIGHT = """\
case $(systemctl show -P NextElapseUSecRealtime vault-run@records.timer) in
*" 03:00:00 "*) ;;
*) fail "the night comes at $(systemctl show -P NextElapseUSecRealtime vault-run@records.timer)" ;;
esac
if [ "$(timedatectl show -p NTPSynchronized --value)" = no ]; then
    ! systemctl start vault-run@records.service || fail "a night by a clock that isn't synchronized"
    log_of vault-run@records | grep -q "isn't synchronized" || fail "the night: $(log_of vault-run@records)"
    until_there /trial/alarm.vault-run@records
    rm /var/backups/vaultctl/*
fi
is "$(status $url/drafts/d)" 200 "a get after a night that failed"
echo TRUST_CLOCK=yes >> /etc/vaultctl/records.conf
served=$(pid)
sleep 1
systemctl start vault-run@records.service || fail "the night's work: $(log_of vault-run@records)"
is "$(pid)" "$served" "the server after the night"
grep -q '^before: ' records.seals || fail "the night makes no seal: $(log_of vault-run@records)"
log_of vault-run@records | grep -q '^drafts: 0 marked, 0 removed' || fail "the night: $(log_of vault-run@records)"
copy=$(echo /var/backups/vaultctl/records-*.vault)
is "$($as verify "$copy")" sound "the copy"
is "$(stat -c '%U %a' "$copy")" "vaultctl 600" "the owner of the copy"
is "$(status $url/drafts/d)" 200 "a get after the night"
[ ! -e /run/vaultctl/alarm.vault-run@records ] || fail "a night that went well forgets no alarm"
tell "the night's work done"
"""

DAMAGED = """\
systemctl stop "$server"
sqlite3 records.vault "UPDATE departments SET held = held + 1, admitted = admitted + 1"
before=$(log_of "$server" | grep -c '^open: Damaged departments' || true)
! systemctl start "$server" || fail "a vault that isn't sound is started without a word"
for it in $(seq 500); do
    [ "$(systemctl is-failed "$server")" = failed ] && break
    sleep 1
done
is "$(systemctl is-failed "$server")" failed "a vault that isn't sound"
is "$(($(log_of "$server" | grep -c '^open: Damaged departments') - before))" 5 "how often it was started"
until_there /trial/alarm.vault-serve@records
grep -q 'open: Damaged departments' /trial/alarm.vault-serve@records || fail "the alarm: $(cat /trial/alarm.vault-serve@records)"
tell "not sound: given up after five starts, and reported"

cp records.vault /trial/unsound
! vaultdesk restore records /trial/unsound || fail "a copy that isn't sound is put back"
cp "$copy" /trial/copy
touch records.vault-shm
vaultdesk restore records /trial/copy
is "$(stat -c '%U %a' records.vault)" "vaultctl 600" "the owner of the vault"
is "$(status $url/drafts/d)" 200 "a get from the copy"
is "$(status -X PUT --data hello $url/drafts/e)" 200 "a put to the copy"
is "$($as verify records-*.replaced/records.vault || true)" "damaged departments" "what stood there"
tell "the copy put back by root"
"""

FIRST = MADE + NAMES + SHUT_IN + LINES + BY_HAND + STOPPED + GATEWAY + OFFLINE + CHECKED + NIGHT + DAMAGED

SECOND = """\
until_served
is "$(status $url/drafts/d)" 200 "a get after a boot"
is "$(systemctl is-active vault-check@records.timer vault-run@records.timer | sort -u)" active "the timers after a boot"
tell "served again by itself"
dpkg -r vaultctl
is "$(systemctl is-active "$server")" inactive "the server without its package"
[ -f /var/lib/vaultctl/records.vault ] || fail "the vault is gone"
tell "removed with the package"
dpkg -i /trial/vaultctl.deb
for it in $(seq 240); do [ "$(systemctl is-active "$server")" = active ] && break; sleep 0.5; done
is "$(systemctl is-active "$server" vault-check@records.timer vault-run@records.timer | sort -u)" active "what comes again"
is "$(status $url/drafts/d)" 200 "a get after the package came again"
dpkg -P vaultctl
is "$(find /etc/systemd -name 'vault-*')" "" "what is left of the units"
[ -f /var/lib/vaultctl/records.vault ] || fail "the vault is gone"
tell "installed again, and purged"
"""


# What stands for a server whose file failed, until it is started anew.
FAILING = """\
import os
import socket

MARK = "/var/lib/vaultctl/failing"
answer = b"403 Forbidden" if os.path.exists(MARK) else b"500 Internal Server Error"
open(MARK, "w").close()
body = b'{"code":"AccessDenied","n":3,"reason":"unknown-caller"}' if answer.startswith(b"403") else b'{"code":"Device","n":23}'
listener = socket.create_server(("127.0.0.1", 8080))
while True:
    client, _ = listener.accept()
    client.recv(65536)
    client.sendall(b"HTTP/1.1 %s\\r\\ncontent-length: %d\\r\\nconnection: close\\r\\n\\r\\n%s" % (answer, len(body), body))
    client.close()
"""


def booted(root, script):
    """What a script says in the system, which is booted for it and ends with it."""
    (root.folder / "trial" / "script").write_text(f"set -eu\n{HEAD}{script}tell 'all is well'\n")
    told = root.folder / "trial" / "told"
    told.unlink(missing_ok=True)
    words = ["systemd-nspawn", "--quiet", "--register=no", "--keep-unit", "--private-network", "--console=pipe", "-D", root.folder, "-b"]
    env = {**os.environ, "SYSTEMD_NSPAWN_UNIFIED_HIERARCHY": "1"}  # which address filters need
    quiet = dict.fromkeys(("stdin", "stdout", "stderr"), subprocess.DEVNULL)
    subprocess.run(words, **quiet, env=env, timeout=BOOT_LIMIT)
    text = told.read_text() if told.exists() else "it wasn't started"
    check(text.endswith("trial: all is well\n"), text)
    return [line for line in text.splitlines() if line.startswith("trial: ")]


def prepared(folder, included):
    """A clean system with the package in it, which carries out a script as it is booted."""
    folder.chmod(0o755)
    said(TOP / "tools" / "packaging" / "package", PROGRAM, folder / "made")
    root = Root(folder / "root", included)
    (debian,) = (folder / "made").glob("*.deb")
    (root.folder / "trial").mkdir()
    root.put(debian, "/trial/vaultctl.deb")
    root.run("dpkg -i /trial/vaultctl.deb")
    (root.folder / "etc/systemd/system/trial.service").write_text(UNIT)
    wants = root.folder / "etc/systemd/system/multi-user.target.wants"
    wants.mkdir(exist_ok=True)
    (wants / "trial.service").symlink_to("../trial.service")
    return root


class Units(Case):
    @needs_system
    @needs("systemd-nspawn")
    def test_boots(self):
        root = prepared(self.folder, INCLUDED)
        (root.folder / "trial" / "failing").write_text(FAILING)
        for script in (FIRST, SECOND):
            print("\n".join(booted(root, script)))
