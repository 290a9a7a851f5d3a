"""Boxes in a system: what the pages for the engineer, S3 and several offices show is carried out under a systemd.

The clean system of `units.py` is booted with nginx, sudo and ssh in it. Each box is taken from its page (`boxes.py`),
and carried out as it stands there but for what is named beside it; after it the trial looks whether what the page says
came of it. A second machine is a second sshd, with folders of its own in the place of /var/lib/vaultctl and
/run/vaultctl. What can't be: `apt install` (there is no network: what it names is in the system), and a log of
yesterday that isn't empty.

That needs root.
"""

from trials.boxes import shown
from trials.parts.clean_system import needs_system
from trials.parts.program import Case, needs
from trials.units import booted, prepared

TAKES_LONG = True
INCLUDED = (
    "python3,curl,sqlite3,systemd-sysv,dbus,openssl,nginx-light,sudo,openssh-server,openssh-client,"
    "python3-flask,python3-waitress,python3-argon2,python3-babel"
)

HEAD = """\
echo hello > /trial/hello
echo 'correct horse' > /trial/password
chmod 644 /trial/hello
desk() { vaultdesk "$@" --vault records; }
# What stands in a box is carried out by a shell of its own, with a password on standard input.
carry_out() { cat > /trial/box; sh -eu /trial/box < /trial/password; }
# A box of `systemctl edit`: the command, and the text that somebody writes there, at a terminal.
edited() {
    cat > /trial/box
    sed 1d /trial/box > /trial/text
    SYSTEMD_EDITOR='cp /trial/text' script -qec "$(sed 1q /trial/box)" /dev/null < /dev/null
}
"""


def given(to: str, page: str, first: str, replaced: dict[str, str] | None = None) -> str:
    """A command that is given the box of a page."""
    return f"{to} <<'END'\n{shown(page, first, replaced)}END\n"


SERVED = shown("ENGINEER", "# cp /usr/share/doc/vaultctl/examples/records.conf /etc/vaultctl/records.conf") + """\
unset VAULT VAULT_CALLER
units='vault-serve@records.service vault-check@records.timer vault-run@records.timer'
is "$(systemctl is-active $units | sort -u)" active "the units of the page"
desk callers --add ann --department records --as registrar --rights put get list delete-version
desk callers --add clerk --department records --as registrar --rights put
desk callers --add gov --department records --as registrar --rights config
tell "a vault that is served"
"""

WHO = "useradd ann\n" + given("carry_out", "ENGINEER", "# groupadd registrars && usermod -aG registrars ann") + """\
runuser -u ann -- vaultdesk put drafts d /trial/hello --vault records --as ann
! runuser -u ann -- vaultdesk find d --vault records || fail "who is of the group reads the tables"
""" + given("cat > /etc/sudoers.d/vault", "ENGINEER", "%registrars ALL = (vaultctl) NOPASSWD: /usr/bin/vaultdesk *") + """\
chmod 440 /etc/sudoers.d/vault
visudo --check
runuser -u ann -- sudo -n -u vaultctl vaultdesk find d --vault records | grep -q ' drafts ' || fail "by sudo nothing is found"
! runuser -u ann -- sudo -n -u vaultctl id || fail "by sudo anything may be done"
tell "who may work on it"
"""

MAP = """\
desk buckets --add letters --department records --as registrar
sed 's/8080/8081/' /etc/vaultctl/records.conf > /etc/vaultctl/court.conf
vaultdesk offline court vaultctl init court.vault
systemctl enable --now vault-serve@court.service
vaultdesk departments --add court --vault court --as registrar
vaultdesk buckets --add cases --department court --vault court --as registrar
vaultdesk callers --add ann --department court --vault court --as registrar --rights put get
vaultdesk offices map | grep -v '^#' > /trial/map
""" + given("cat > /trial/page", "OFFICES", "upstream court { server 127.0.0.1:8081; }") + """\
! grep -vxFf /trial/map /trial/page > /trial/lacking || fail "what nginx has to know lacks $(cat /trial/lacking)"
tell "what nginx has to know of two offices"
"""

NGINX = given("carry_out", "ENGINEER", "# apt install nginx-light openssl", {"apt install nginx-light openssl": "true"}) + """\
echo '127.0.0.1 vault.example.org vaults.example.org other.example.org' >> /etc/hosts
asked() { curl -sk -u "ann:$(cat /trial/password)" "$@"; }
# nginx takes a moment for what it has read anew.
until_asked() { for it in $(seq 60); do [ "$(asked "$1" || true)" = "$2" ] && return; sleep 0.5; done; fail "$1: $(asked "$1")"; }
until_asked https://vault.example.org/drafts/d hello
is "$(curl -sk -o /trial/body -w '%{http_code}' https://vault.example.org/drafts/d)" 401 "a get without a password"
is "$(stat -c %a /etc/ssl/vault.key)" 600 "the mode of the key"
for it in pem key; do cp /etc/ssl/vault.$it /etc/ssl/vaults.$it; done
cp /etc/nginx/vault.users /etc/nginx/vaults.users
chown --reference=/etc/nginx/vault.users /etc/nginx/vaults.users
""" + given("carry_out", "OFFICES", "# cp /usr/share/doc/vaultctl/examples/nginx-vaults.conf /etc/nginx/conf.d/vaults-site.conf") + """\
until_asked https://vaults.example.org/drafts/d hello
filed() { [ "$(asked -X PUT --data filed -o /trial/body -w '%{http_code}' https://vaults.example.org/cases/c || true)" = 200 ]; }
for it in $(seq 60); do filed && break; sleep 0.5; done
until_asked https://vaults.example.org/cases/c filed
cp /var/log/nginx/access.log /var/log/nginx/access.log.1
tell "nginx before one vault, and before two"
"""

WEB = given(
    "carry_out", "ENGINEER", "# apt install nginx-light python3-flask python3-waitress python3-argon2 python3-babel",
    {"apt install nginx-light python3-flask python3-waitress python3-argon2 python3-babel": "true"},
) + """\
echo '127.0.0.1 pages.example.org' >> /etc/hosts
pages() { curl -sk -b /trial/cookies -c /trial/cookies -o /trial/body -w '%{http_code}' "$@" || true; }
token() { sed -n 's/.*name="token" value="\\([^"]*\\)".*/\\1/p' /trial/body | tail -n 1; }
for it in $(seq 120); do [ "$(pages https://pages.example.org/login)" = 200 ] && break; sleep 0.5; done
is "$(pages -d name=ann -d "password=$(cat /trial/password)" -d "token=$(token)" https://pages.example.org/login)" 303 "a login"
is "$(pages https://pages.example.org/find?text=d)" 200 "a search"
grep -q '>drafts<' /trial/body || fail "the pages find nothing: $(cat /trial/body)"
is "$(pages -F bucket=drafts -F key=web -F "token=$(token)" -F file=@/trial/hello https://pages.example.org/put/file)" 303 "a put"
is "$(status $url/drafts/web)" 200 "what was put by a page"
is "$(pages https://pages.example.org/version/1)" 200 "a document's page"
is "$(pages -d 'case=Miller 17' -d "token=$(token)" https://pages.example.org/version/1/hold)" 403 "a hold without the right"
is "$(stat -c '%U %a' /var/lib/vaultctl/records.cases)" "vaultctl 600" "the file of cases"
web=$(systemctl show -P MainPID vault-web@records.service)
is "$(stat -c %U /proc/$web)" vaultctl "the user of the pages"
! nsenter --mount --target "$web" runuser -u vaultctl -- touch /var/lib/vaultctl/records.vault || fail "the pages may write the vault"
nsenter --mount --target "$web" runuser -u vaultctl -- touch /var/lib/vaultctl/records.cases || fail "nor the file of cases"
log_of vault-web@records | grep -q ' ann POST /put/file 303 ' || fail "no line of the put: $(log_of vault-web@records)"
tell "pages for a browser"
"""

LOG = given("edited", "ENGINEER", "# systemctl edit vault-serve@records.service") + """\
systemctl restart "$server"
is "$(status $url/drafts/d)" 200 "a get of a server with a log"
sleep 1
log_of "$server" | grep -q '"caller":"ann".*drafts' || log_of "$server" | grep -q 'drafts' || fail "no line of the request"
cp /usr/share/doc/vaultctl/examples/s3.toml /etc/vaultctl/records.s3.toml
""" + given("carry_out", "ENGINEER", "# vaultdesk buckets --add trails --department records --vault records --as registrar") + """\
desk ls trails --as ann > /trial/trails
for it in vault-serve@records.service vault-s3@records.service nginx; do
    is "$(grep -c "$it/$(date -u -d yesterday +%F)/0001" /trial/trails)" 1 "the log of $it in the vault"
done
desk get trails "nginx/$(date -u -d yesterday +%F)/0001" --as ann | grep -q 'GET /drafts/d' || fail "the log of nginx"
tell "logs as documents"
"""

DUE = """\
install -d -o vaultctl /trial/due
printf '#!/bin/sh\\nid -un > /trial/due/by\\necho "$*" > /trial/due/words\\ncat > /trial/due/mail\\n' > /usr/sbin/sendmail
chmod 755 /usr/sbin/sendmail
! systemctl start vault-due@records.service || fail "a mail to nobody"
desk callers --add keeper --department records --as registrar --rights put retain
desk put drafts ends /trial/hello --until "$(date -u -d '+10 days' +%F)" --as keeper
""" + given("carry_out", "ENGINEER", "# echo DUE_MAIL=registrar@example.org >> /etc/vaultctl/records.conf") + """\
is "$(systemctl is-active vault-due@records.timer)" active "the timer of what is due"
systemctl show -P TimersCalendar vault-due@records.timer | grep -q ' 07:00:00 ' || fail "when the mail is sent"
systemctl start vault-due@records.service || fail "the mail: $(log_of vault-due@records)"
is "$(cat /trial/due/by)" vaultctl "who sends the mail"
is "$(cat /trial/due/words)" "-t -oi" "the words of sendmail"
grep -qx 'To: registrar@example.org' /trial/due/mail || fail "the mail: $(cat /trial/due/mail)"
grep -q '^- 1 retention' /trial/due/mail || fail "the mail: $(cat /trial/due/mail)"
tell "what is due, by mail"
"""

NIGHT = given("edited", "ENGINEER", "# systemctl edit vault-run@records.service") + """\
echo TRUST_CLOCK=yes >> /etc/vaultctl/records.conf
systemctl start vault-run@records.service || fail "the night: $(log_of vault-run@records)"
empty='the log of vault-serve@records.service of .* is empty: an empty document was there already'
log_of vault-run@records | grep -q "$empty" || fail "the night takes in no log: $(log_of vault-run@records)"
printf '#!/bin/sh\\nid -un >> /trial/deposited\\ntail -n 4 /var/lib/vaultctl/records.seals >> /trial/deposited\\n' > /usr/local/sbin/deposit-seals
chmod 755 /usr/local/sbin/deposit-seals
""" + given("cat > /etc/systemd/system/vault-run@records.service.d/seals.conf", "ENGINEER", "[Service]") + """\
systemctl daemon-reload
sleep 1
systemctl start vault-run@records.service || fail "the night: $(log_of vault-run@records)"
grep -q '^sha256: ' /trial/deposited || fail "no seal is deposited"
is "$(head -n 1 /trial/deposited)" root "who deposits a seal"

# A server that takes no lines is stopped for the night's work, and started again.
mkdir -p /etc/systemd/system/$server.d
printf '[Service]\\nExecStart=\\nExecStart=/usr/bin/vaultctl serve %%i.vault ${PORT}\\n' > /etc/systemd/system/$server.d/zz.conf
systemctl daemon-reload
systemctl restart "$server"
served=$(pid)
rm /etc/systemd/system/vault-run@records.service.d/*
systemctl daemon-reload
sleep 1
systemctl start vault-run@records.service || fail "the night: $(log_of vault-run@records)"
[ "$(pid)" != "$served" ] || fail "a server that takes no lines isn't stopped for the night"
rm /etc/systemd/system/$server.d/zz.conf
systemctl daemon-reload
systemctl restart "$server"
tell "nights with more after them"

systemctl stop vault-check@records.timer "$server"
""" + "\n".join(
    f"runuser -u vaultctl -- sh -euc '{line.split(maxsplit=5)[5]}'"
    for line in shown("ENGINEER", "0 3 * * *  cd /var/lib/vaultctl && vaultctl run records.vault drafts --as night >> night.log 2>&1").splitlines()
) + """
grep -q '"marked":0' night.log || fail "the crontab's command says $(cat night.log)"
tell "a night by cron"
"""

ALARM = "printf '#!/bin/sh\\necho \"$@\" > /trial/mail\\ncat >> /trial/mail\\n' > /usr/local/bin/mail; chmod 755 /usr/local/bin/mail\n" + given(
    "cat >> /etc/vaultctl/records.conf", "ENGINEER", "ALARM='mail -s \"$UNIT failed\" root'"
) + """\
! systemctl start vault-check@records.service || fail "a server that doesn't run is passed over"
until_there /trial/mail
sleep 1
is "$(head -n 1 /trial/mail)" "-s vault-check@records failed root" "the alarm"
grep -q "is enabled and doesn't run" /trial/mail || fail "the alarm: $(cat /trial/mail)"
systemctl start "$server"
systemctl start vault-check@records.service || fail "the check: $(log_of vault-check@records)"

# A file that is away, one in its place, and back.
served=$(pid)
said=$(log_of vault-check@records | grep -c "records.vault: not where the server opened it" || true)
mv records.vault away.vault
! systemctl start vault-check@records.service || fail "a server whose file is away is called healthy"
cp away.vault records.vault
! systemctl start vault-check@records.service || fail "a server that has another file open is called healthy"
rm records.vault
is "$(log_of vault-check@records | grep -c "records.vault: not where the server opened it")" $((said + 2)) "what is said of it"
is "$(status -X PUT --data x $url/drafts/x)" 500 "a put without the file"
mv away.vault records.vault
! systemctl start vault-check@records.service || fail "a server that refuses changes is called healthy"
is "$(pid)" "$served" "the server, which nobody started anew"
log_of vault-check@records | grep -q "systemctl restart $server" || fail "what to do isn't said: $(log_of vault-check@records)"
systemctl restart "$server"
systemctl reset-failed vault-check@records.service # which counts starts by hand, too
systemctl start vault-check@records.service || fail "the check: $(log_of vault-check@records)"
is "$(status -X PUT --data x $url/drafts/x)" 200 "a put after the restart"
tell "alarms, and a file that was away"

copy=$(ls /var/backups/vaultctl/records-*.vault | head -n 1)
""" + shown(
    "ENGINEER", "# vaultdesk restore records /var/backups/vaultctl/records-20261127T030000Z.vault",
    {"/var/backups/vaultctl/records-20261127T030000Z.vault": '"$copy"'},
) + """\
is "$(status $url/drafts/d)" 200 "a get from the copy"
tell "a copy put back"
"""

GATEWAY = given("carry_out", "S3", "# cp /usr/share/doc/vaultctl/examples/s3.toml /etc/vaultctl/records.s3.toml") + """\
until_gateway() {
    for it in $(seq 240); do
        [ "$(curl -s -o /trial/body -w '%{http_code}' $1 || true)" = 403 ] && return
        sleep 0.5
    done
    fail "no gateway at $1"
}
until_gateway http://127.0.0.1:9000/drafts/d
""" + "printf 'server {\\n    listen 8091;\\n' > /etc/nginx/conf.d/s3.conf\n" + given("cat >> /etc/nginx/conf.d/s3.conf", "S3", "location / {") + """\
echo '}' >> /etc/nginx/conf.d/s3.conf
nginx -t && systemctl reload nginx
until_gateway http://127.0.0.1:8091/drafts/d
grep -q '<Code>AccessDenied' /trial/body || fail "through nginx the gateway says $(cat /trial/body)"
systemctl disable --now vault-s3@records.service

""" + given("cat > /etc/vaultctl/s3.toml", "S3", 'vault = "/var/lib/vaultctl/records.vault"') + """\
""" + given("cat > /trial/box", "S3", "$ vaultdesk s3 key add ann") + """\
is "$(grep -c '^vaultdesk s3' /trial/box)" 3 "the commands of the box, and what one says"
runuser -u vaultctl -- vaultdesk s3 key add ann > /trial/key 2> /trial/said || fail "a key: $(cat /trial/said)"
is "$(stat -c '%U %a' records.keys.toml)" "vaultctl 600" "the owner of the keys"
grep -q '^access key  [A-Z0-9]\\{20\\}$' /trial/key || fail "a key: $(cat /trial/key)"
grep -q '^secret      .\\{40\\}$' /trial/key || fail "a key: $(cat /trial/key)"
timeout 20 runuser -u vaultctl -- vaultdesk s3 serve 2> /trial/served &
until_gateway http://127.0.0.1:9000/drafts/d
sed -n '/^vaultdesk s3: \\|^serving /p' /trial/box | while read -r it; do
    grep -qF "$it" /trial/served || fail "the gateway doesn't say $it: $(cat /trial/served)"
done
wait || true
tell "gateways for clients of S3"
"""

OTHER = """\
systemctl stop ssh.service
mkdir -p /trial/other /trial/other.run /run/sshd
chown vaultctl: /trial/other
ssh-keygen -A > /trial/said
# The second machine.
unshare --mount sh -c 'mount --bind /trial/other /var/lib/vaultctl; mount --bind /trial/other.run /run/vaultctl; exec /usr/sbin/sshd -D -p 22' &
sleep 2
mkdir -p -m 700 /root/.ssh
ssh-keygen -q -t ed25519 -N '' -f /root/.ssh/id_ed25519
cat /root/.ssh/id_ed25519.pub > /root/.ssh/authorized_keys
ssh-keyscan other.example.org > /etc/ssh/ssh_known_hosts 2> /trial/said
mkdir /root/office /root/office/elsewhere
cd /root/office
vaultctl init records.vault
ln -s /root/office/elsewhere /root/elsewhere # the folder is the other machine's
""" + given(
    "cat > /trial/box", "OFFICES", "cp -p records.vault records.vault-wal elsewhere/",
    {"vaultctl serve records.vault 8080": "vaultctl serve records.vault 8085 --lines lines"},
) + """\
timeout 60 sh -eu /trial/box > /trial/replies 2> /trial/said &
until_there /root/office/lines
vaultdesk departments --add maps --vault records.vault --door /root/office/lines --as registrar
for it in $(seq 120); do grep -q '"ok"' /trial/replies && break; sleep 0.5; done
grep -q '"ok"' /trial/replies || fail "the other machine carries out nothing: $(cat /trial/said)"
vaultdesk close --vault records.vault --door /root/office/lines --as registrar
pkill -f 'tail -n [+]1 -F journal'
sleep 2
is "$(vaultdesk departments --vault /root/elsewhere/records.vault | grep -c '^maps ')" 1 "what the other machine has"
tell "a journal by hand"

cd /var/lib/vaultctl
systemctl stop vault-check@records.timer
runuser -u vaultctl -- ssh-keygen -q -t ed25519 -N '' -f /var/lib/vaultctl/.ssh/id_ed25519
key=$(cut -d ' ' -f 1,2 /var/lib/vaultctl/.ssh/id_ed25519.pub)
""" + given("cat > /trial/box", "OFFICES", "# usermod --shell /bin/sh vaultctl") + """\
sed -i "s|ssh-ed25519 AAAA..|$key|" /trial/box
nsenter --mount --target "$(pgrep -o -f 'sshd -D -p 22')" sh -eu /trial/box
until_served
sed -i 's|--log$|& --journal %i.journals/now/journal|' /etc/systemd/system/$server.d/override.conf # as the page says
""" + given("carry_out", "OFFICES", "# echo STANDBY=vaultctl@other.example.org >> /etc/vaultctl/records.conf") + """\
is "$(status -X PUT --data followed $url/drafts/followed)" 200 "a put to a vault that is followed"
there=/trial/other/records.standby/now/records.vault
for it in $(seq 120); do vaultdesk find followed --vault $there | grep -q ' drafts ' && break; sleep 1; done
vaultdesk find followed --vault $there | grep -q ' drafts ' || fail "the other machine hasn't what was put: $(log_of vault-follow@records)"
tell "a second machine follows"
"""

SCRIPT = HEAD + SERVED + WHO + MAP + NGINX + WEB + LOG + DUE + NIGHT + ALARM + GATEWAY + OTHER


class Boxes(Case):
    @needs_system
    @needs("systemd-nspawn")
    def test_boxes(self) -> None:
        root = prepared(self.folder, INCLUDED)
        print("\n".join(booted(root, SCRIPT)))
