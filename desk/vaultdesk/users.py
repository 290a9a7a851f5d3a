"""The users whom nginx or the pages let in: a file of names, each with the digest of a password.

A line is `NAME:DIGEST`, as `htpasswd` writes it and nginx's auth_basic_user_file reads it; the pages (`vaultdesk web`)
read those alone whose digest is argon2's, which nginx doesn't know. A user's name is a caller's.
"""

from __future__ import annotations

import argparse
import getpass
import grp
import importlib
import os
import subprocess
import sys
from pathlib import Path

from vaultdesk import conf, config, reading, snapshot
from vaultdesk.asking import add_yes, confirm
from vaultdesk.errors import DeskError, UsageError
from vaultdesk.output import print_json, print_table
from vaultdesk.owner import Owner, owner_of
from vaultdesk.replacing import write_anew

NGINX = "www-data"  # the group as which Debian's nginx reads
PAGES = "vaultctl"  # and the one as which the unit of the pages does
ARGON2 = "$argon2"  # how a digest by argon2 begins
ABOUT = """Looks after a file of the users whom nginx lets in (auth_basic_user_file), or with --argon2 the pages
(vaultdesk web --users). Each line has a name, which has to be a caller's, and the digest of a password. The passwords
themselves are kept nowhere."""
SHORTEST = 8  # characters of a password


def read_users(path: Path) -> dict[str, str]:
    """The digest of each user in the file, in its order. `DeskError` where a line isn't understood."""
    try:
        lines = path.read_text(encoding="utf-8").splitlines()
    except (OSError, UnicodeDecodeError) as error:
        raise DeskError(f"{path}: {getattr(error, 'strerror', None) or error}") from error
    users = {}
    for number, line in enumerate(lines, start=1):
        if not line.strip() or line.startswith("#"):
            continue
        name, colon, digest = line.partition(":")
        if not colon or not digest:
            raise DeskError(f"{path}: line {number} isn't NAME:DIGEST: mend it, or remove it")
        users[name] = digest
    return users


def _placed(path: Path, reader: str) -> tuple[int, Owner]:
    """The mode and the owner of the file: those that it has, or for a new one those that its reader's group needs."""
    if path.exists():
        return path.stat().st_mode & 0o777, owner_of(path)
    try:
        group = grp.getgrnam(reader).gr_gid
    except KeyError:
        group = os.getegid()
    return 0o640, Owner(os.geteuid(), group)


def write_users(path: Path, users: dict[str, str]) -> None:
    """Writes the file anew, so that who reads it has the old one or the new one."""
    is_of_pages = any(it.startswith(ARGON2) for it in users.values())
    mode, owner = _placed(path, PAGES if is_of_pages else NGINX)

    def place(new: Path) -> None:
        new.chmod(mode)
        owner.give(new)

    write_anew(path, "".join(f"{user}:{digest}\n" for user, digest in users.items()), place)


def digest_of(password: str) -> str:
    """The digest of a password by SHA-512 and a salt, which nginx asks the C library about."""
    try:
        done = subprocess.run(
            ["openssl", "passwd", "-6", "-stdin"], input=f"{password}\n", capture_output=True, text=True, check=True
        )
    except OSError as error:
        raise DeskError("openssl isn't installed, which makes the digests of passwords") from error
    except subprocess.CalledProcessError as error:
        raise DeskError(f"openssl: {error.stderr.strip()}") from error
    return done.stdout.strip()


def _digest(words: argparse.Namespace, before: str = "") -> str:
    """The digest of a password that is asked for: by argon2 where that is asked, or the one before it is."""
    password = ask_password(words.name)
    if not words.argon2 and not before.startswith(ARGON2):
        return digest_of(password)
    passwords = importlib.import_module("vaultdesk.web.passwords")  # which needs more than the rest of the desk
    return str(passwords.digest_of(password))


def ask_password(name: str) -> str:
    """A password: asked for twice at a terminal, else the first line of standard input."""
    if sys.stdin.isatty():
        password = getpass.getpass(f"Password of {name}: ")
        if getpass.getpass("Again: ") != password:
            raise DeskError("the two differ: nothing was changed")
    else:
        password = sys.stdin.readline().rstrip("\n")
    if len(password) < SHORTEST:
        raise DeskError(f"a password has at least {SHORTEST} characters: nothing was changed")
    return password


def _callers(vault: str | None) -> dict[str, str]:
    """The callers of a vault, `open` or `closed`."""
    if not vault:
        return {}
    with snapshot.readable(config.settings().file_of(vault)) as tables:
        found = reading.rows(tables, "SELECT name, closed FROM callers")
    return {str(name): "closed" if closed else "open" for name, closed in found}


def users_list(words: argparse.Namespace) -> int:
    """Prints the users of the file, and with a vault whether each is a caller of it, and which callers are no users."""
    users, callers = read_users(Path(words.file)), _callers(words.vault)
    rows = [{"user": it, "lets in": "yes", "caller": callers.get(it, "none")} for it in users]
    rows += [{"user": it, "lets in": "no", "caller": state} for it, state in sorted(callers.items()) if it not in users]
    print_table(rows, ("user", "lets in", "caller") if words.vault else ("user",), words.json)
    return 0


def _tell(words: argparse.Namespace, what: str) -> None:
    """Prints what was done with a user, where JSON is asked for."""
    if words.json:
        print_json({"file": words.file, "user": words.name, "done": what})


def users_add(words: argparse.Namespace) -> int:
    """Adds a user, whose password is asked for."""
    path = Path(words.file)
    users = read_users(path) if path.exists() else {}
    if words.name in users:
        raise DeskError(f"{words.name} is in {path} already: vaultdesk users password gives another password")
    if not conf.CALLER.fullmatch(words.name):
        raise UsageError(f"{words.name!r} can be no caller's name, which has 1 to 64 of a-z, 0-9, '-', '_' and '.'")
    if words.vault and _callers(words.vault).get(words.name) != "open":
        raise DeskError(f"{words.name} is no open caller of {words.vault}: vaultdesk callers --add makes one")
    users[words.name] = _digest(words)
    write_users(path, users)
    _tell(words, "added")
    return 0


def users_password(words: argparse.Namespace) -> int:
    """Gives a user another password."""
    users = read_users(Path(words.file))
    if words.name not in users:
        raise DeskError(f"{words.name} isn't in {words.file}: vaultdesk users add adds one")
    users[words.name] = _digest(words, users[words.name])
    write_users(Path(words.file), users)
    _tell(words, "password")
    return 0


def users_remove(words: argparse.Namespace) -> int:
    """Removes a user: that one is let in no more. The caller in the vault stays."""
    users = read_users(Path(words.file))
    if users.pop(words.name, None) is None:
        raise DeskError(f"{words.name} isn't in {words.file}")
    if words.dry_run:
        if not words.json:
            print(f"{words.name} would be let in no more")
        _tell(words, "would be removed")
        return 0
    confirm(words, f"{words.name} is let in no more")
    write_users(Path(words.file), users)
    _tell(words, "removed")
    return 0


def add(commands: argparse._SubParsersAction[argparse.ArgumentParser], common: argparse.ArgumentParser) -> None:
    """Adds the subcommands to the desk's words."""
    what = "the users whom nginx or the pages let in: list, add, password, remove"
    made = commands.add_parser("users", help=what, description=ABOUT)
    kinds = made.add_subparsers(dest="kind", required=True, metavar="KIND")
    text = "the file that nginx names in auth_basic_user_file, or vaultdesk web by --users"
    by_argon2 = "keep the password by argon2, for vaultdesk web"
    place = "/etc/nginx/vault.users"

    example = f"Example: vaultdesk users list {place} --vault records.vault"
    it = kinds.add_parser("list", parents=[common], help="print the users", epilog=example)
    it.add_argument("file", metavar="FILE", help=text)
    told = "say of each whether it is a caller there, and which callers are no users"
    it.add_argument("--vault", metavar="V", help=told)
    it.set_defaults(do=users_list)

    example = f"Example: vaultdesk users add {place} ann"
    what = "add one: its password is asked for, or is the first line of standard input"
    it = kinds.add_parser("add", parents=[common], help=what, epilog=example)
    it.add_argument("file", metavar="FILE", help=f"{text}; it is made if it isn't there")
    it.add_argument("name", metavar="NAME", help="the name of a caller")
    it.add_argument("--vault", metavar="V", help="check first that the vault has this caller")
    it.add_argument("--argon2", action="store_true", help=by_argon2)
    it.set_defaults(do=users_add)

    example = f"Example: vaultdesk users password {place} ann"
    it = kinds.add_parser("password", parents=[common], help="give one another password", epilog=example)
    it.add_argument("file", metavar="FILE", help=text)
    it.add_argument("name", metavar="NAME")
    it.add_argument("--argon2", action="store_true", help=f"{by_argon2}; one that is kept so stays so")
    it.set_defaults(do=users_password)

    example = f"Example: vaultdesk users remove {place} ann"
    it = kinds.add_parser("remove", parents=[common], help="remove one", epilog=example)
    it.add_argument("file", metavar="FILE", help=text)
    it.add_argument("name", metavar="NAME")
    add_yes(it)
    it.set_defaults(do=users_remove)
