"""Recheck: `contrib/vault-recheck` beside the program, on vaults that are sound, damaged and forged.

Forgeries: in the files of `examples/forgeries`, `* NAME` begins a row. `% SQL` are statements that Python's sqlite3
carries out in a copy of the vault that the program makes by `vault.jsonl`; after `@ external` it is a vault that keeps
outside what has more than four bytes. `mend.sql` follows, which puts right what `verify` looks at. `> COMMAND: ANSWER`
says what is answered then: `verify` of the program and `audit`, which are `sound` where nothing is said; `lawful`;
`coherent`, the beginning of each line, and `coherent` where nothing is said; `seal`, the days of the seals of the
honest vault that differ, or `as sealed`; and `compare` of the honest vault with the forged one, the beginning of each
line, or `unaltered`. `refused` says that a command gives no answer.

Damages: on each file of `examples/damages`, `verify` and `audit` answer alike. Words: what is answered to words that
aren't understood, how seals and events fit together, what a terminal shows, and what is read of a log. Bodies: what is
said of a folder in which contents that are kept outside are missing, differ or can't be read. Examples: each vault that
the scripts of `examples` and `contrib` leave is sound, lawful and coherent. Generated: a random script makes a vault in
two halves, mostly of lines that are done; every other vault keeps contents outside. It is lawful and coherent, its
first half is found unaltered in it, and the seal of that half comes out of it. Then a row is changed at random, again
and again, half of the time with `mend.sql`: `verify` and `audit` answer alike, and where they say `sound`, a change of
what never changes is seen by `compare`.

On each sound vault `contrib/queries/events-text.sql` has the text of `events`, of all and before the moment of one.
The program's answers to `lawful`, `events` and `seal` are compared wherever these are asked. There are 12 generated
vaults and a part of the examples, or, where a run may be long, 300 and all; TRIALS_VAULTS is another number of them,
and TRIALS_SEED, which is 1 if nothing is said, has other ones made.
"""

import collections
import contextlib
import functools
import hashlib
import io
import json
import os
import pathlib
import pty
import random
import shutil
import sqlite3
import subprocess
from typing import Any, NamedTuple, Optional

from trials import damages
from trials.parts.outside import registered, script_outside
from trials.parts.program import (
    CONTRIB, EXAMPLES, IS_LONG, LIMIT, NOBODY, PROGRAM, Case, Ran, a_test_each, carry_out, check, printed, ran, ran_words,
    shared_folder,
)
from vault_recheck import vault, words

FORGERIES = EXAMPLES / "forgeries"
EVENTS = CONTRIB / "queries" / "events-text.sql"
SEALED = ("2024-02-15T00:00:00Z", "2024-03-20T09:00:00Z")
# The bytes of a content that stays inside in a vault of forgeries which keeps contents outside.
MOST_INSIDE = 4
FORGERIES_OF_EACH = 8
DAY = 86_400
VAULTS = int(os.environ.get("TRIALS_VAULTS", 300 if IS_LONG else 12))
SEED = os.environ.get("TRIALS_SEED", "1")


class Row(NamedTuple):
    """A row of forgeries: where it is, what it changes, and what is answered then."""

    place: str
    changes: list[str]
    answers: dict[str, list[str]]
    is_external: bool = False


def recheck(*given: object) -> Ran:
    """What vault-recheck writes for these words, and its status."""
    out, err = io.StringIO(), io.StringIO()
    with contextlib.redirect_stdout(out), contextlib.redirect_stderr(err):
        try:
            status = words.main([str(it) for it in given])
        except SystemExit as ended:
            status = int(ended.code or 0)
    return Ran(status, out.getvalue(), err.getvalue())


def init(file: pathlib.Path, is_external: bool) -> None:
    printed("init", file, *(["--external"] if is_external else []))


def make(file: pathlib.Path, script: str, is_external: bool = False) -> list[str]:
    """The replies to a script over a new vault, whose log is part of the file then."""
    init(file, is_external)
    played = printed("replay", file, given=script)
    carry_out(file, [])
    return played.splitlines()


# ---- what both are asked


def answers_alike(file: pathlib.Path, name: str) -> str:
    """What `verify` and `audit` answer of a file; fails unless it is the same."""
    said, found = ran("verify", file), recheck("audit", file)
    check(said[:2] == found[:2], f"{name}: verify says {said}, audit {found}")
    return said.out.strip()


def judged_alike(command: str, file: pathlib.Path, name: str) -> Ran:
    """What both answer of a file that is sound; fails unless it is the same. What an unlawful entry shows they say in
    words of their own."""
    said, found = ran(command, file), recheck(command, file)
    alike = said == found if said.status == 0 else said[:2] == found[:2]
    check(alike, f"{name}: {command} says {said}, and {found}")
    return said


def compare_with_program(file: pathlib.Path, name: str) -> None:
    """Fails unless what the program answers beside vault-recheck is the same, of a file that is sound."""
    for command in ("lawful", "events", "seal"):
        judged_alike(command, file, name)


def events_by_query(file: pathlib.Path, before: Optional[str]) -> str:
    """The events of a file, as the auditor's query has them."""
    with contextlib.closing(sqlite3.connect(f"{file.as_uri()}?mode=ro", uri=True)) as base:
        return "".join(f"{line}\n" for line, in base.execute(EVENTS.read_text(), {"before": before}))


def compare_with_query(file: pathlib.Path, name: str) -> None:
    """Fails unless the auditor's query has the text of `events`, of all and before the moment of one of them."""
    events = recheck("events", file).out
    check(events_by_query(file, None) == events, f"{name}: events-text.sql has other events")
    moments = sorted(it.split(",")[2] for it in events.splitlines()[1:])
    if moments:
        before = moments[len(moments) // 2]
        some = recheck("events", file, "--before", before).out
        check(events_by_query(file, before) == some, f"{name}: events-text.sql has other events before {before}")


def looks_lawful(file: pathlib.Path, name: str) -> None:
    """Fails unless the file is sound and lawful, and the events have the removals of the register."""
    check(answers_alike(file, name) == "sound", f"{name} isn't sound")
    for it in ("lawful", "coherent"):
        found = recheck(it, file)
        check(found[:2] == (0, f"{it}\n"), f"{name}: {found}")
    removed = [it.split(",")[0] for it in recheck("events", file).out.splitlines() if it.split(",")[1] == "removed"]
    register = [it.split(",")[0] for it in printed("register", file).splitlines()[1:]]
    check(removed == register, f"{name}: the events have the removals of {removed}, the register of {register}")
    compare_with_program(file, name)
    compare_with_query(file, name)


# ---- forgeries and damages


def forgeries() -> dict[str, Row]:
    """The rows of all families, by family and name."""
    found: dict[str, Row] = {}
    for path in sorted(FORGERIES.glob("*.txt")):
        name = ""
        for number, line in enumerate(path.read_text().split("\n"), 1):
            mark, text = line[:1], line[2:]
            if mark == "*":
                name = f"{path.stem}: {text}"
                check(name not in found, f"two rows have the name {name}")
                found[name] = Row(f"{path.name}:{number}", [], {})
            elif mark == "@":
                check(text == "external", f"{path.name}:{number}: there is no vault {text}")
                found[name] = found[name]._replace(is_external=True)
            elif mark == "%":
                found[name].changes.append(text)
            elif mark == ">":
                command, _, answer = text.partition(": ")
                found[name].answers.setdefault(command, []).append(answer)
    return found


@functools.cache
def honest_of(is_external: bool) -> pathlib.Path:
    """The vault of which forgeries are copies; its seals are in the file `seals` beside it."""
    folder, script = shared_folder() / f"honest-{is_external}", (FORGERIES / "vault.jsonl").read_text()
    folder.mkdir()
    replies = make(folder / "vault", script_outside(script, MOST_INSIDE) if is_external else script, is_external)
    refused = [it for it in replies if not it.startswith('{"ok":')]
    check(not refused, f"lines of examples/forgeries/vault.jsonl are refused: {refused}")
    sealed = recheck("seal", folder / "vault", "--before", SEALED[0], "--before", SEALED[1])
    check(sealed.status == 0, f"no seals: {sealed}")
    (folder / "seals").write_text(sealed.out)
    return folder / "vault"


def honest() -> pathlib.Path:
    return honest_of(False)


def answer_of(ran: Ran) -> str:
    return ran.out.strip() or "refused"


def seal_answer(file: pathlib.Path, seals: pathlib.Path) -> str:
    """The days of the seals that differ."""
    ran = recheck("check-seals", file, seals)
    days = [it.split()[1][:10] for it in ran.out.splitlines() if it.startswith("differs ")]
    return " ".join(days) or answer_of(ran)


def are_wanted(command: str, found: list[str], wanted: list[str]) -> bool:
    """Of `coherent` and `compare` the beginning of each line is wanted, of the others the whole answer."""
    if command not in ("coherent", "compare"):
        return found == wanted
    return len(found) == len(wanted) and all(line.startswith(it) for line, it in zip(found, wanted))


ROWS = forgeries()


@a_test_each(ROWS)
class Forgeries(Case):
    def look_at(self, name: str) -> None:
        row, file = ROWS[name], self.folder / "vault"
        before = honest_of(row.is_external)
        shutil.copyfile(before, file)
        carry_out(file, [*row.changes, (FORGERIES / "mend.sql").read_text()])
        found = {
            "verify": [ran("verify", file).out.strip()],
            "audit": [recheck("audit", file).out.strip()],
            "lawful": [answer_of(recheck("lawful", file))],
            "coherent": answer_of(recheck("coherent", file)).splitlines(),
            "seal": [seal_answer(file, before.with_name("seals"))],
            "compare": answer_of(recheck("compare", before, file)).splitlines(),
        }
        if found["verify"] == ["sound"]:
            compare_with_program(file, row.place)
        wanted = {"verify": ["sound"], "audit": ["sound"], "coherent": ["coherent"], **row.answers}
        for it, lines in found.items():
            right = are_wanted(it, lines, wanted.get(it, []))
            check(right, f"{row.place}: {it}: wanted {wanted.get(it)}, got {lines}")


@a_test_each(damages.ROWS)
class Damages(Case):
    def look_at(self, name: str) -> None:
        row, file = damages.ROWS[name], self.folder / "vault"
        beginning = damages.beginnings()[row.beginning]
        if beginning is not None:
            file.write_bytes(beginning)
        if row.changes:
            carry_out(file, row.changes)
        answers_alike(file, row.place)


# ---- words, seals and logs


class Words(Case):
    def test_words(self) -> None:
        """What is answered to words that aren't understood, moments that are too late, and files that aren't there."""
        vault = honest()
        before = vault.read_bytes()
        wanted = {
            ("events", vault, "--before", "2024-02-30T00:00:00Z"): ("", 2),
            ("seal", vault, "--before", "2024-03-20"): ("", 2),
            ("seal", vault, "--before", "2024-03-20T09:00:01Z"): ("", 1),
            ("check-seals", vault, vault.with_name("none")): ("", 1),
            ("check-seals", vault, FORGERIES / "mend.sql"): ("", 1),
            ("audit", vault.with_name("none")): ("damaged meta\n", 1),
            ("lawful", vault.with_name("none")): ("", 1),
            ("compare", vault, vault.with_name("none")): ("", 1),
            ("compare", vault, vault): ("unaltered\n", 0),
            ("seal", vault): (recheck("seal", vault, "--before", SEALED[1]).out, 0),
        }
        for given, answer in wanted.items():
            ran = recheck(*given)
            check((ran.out, ran.status) == answer, f"{given}: wanted {answer}, got {ran}")
            check(ran.status == 0 or ran.err, f"{given}: no word on standard error")
        check(vault.read_bytes() == before, "a file that was read has changed")

    def test_last(self) -> None:
        """Where no entry shows the last moment, both programs say it and the last that an entry shows, whatever it shows."""
        file, last = self.folder / "vault", "2096-10-02T07:06:40Z"
        shows = {
            "2024-03-20T09:00:00Z": "",
            "2025-01-01T00:00:00Z": "INSERT INTO settings VALUES (10, 2, unixepoch('2025-01-01'), 'hal', 0, NULL, 1, 0)",
            "2025-01-02T00:00:00Z": "UPDATE tenures SET moment = unixepoch('2025-01-02') WHERE n = 3",
            "2025-01-03T00:00:00Z":
                "UPDATE entries SET removed = unixepoch('2025-01-03'), cause = 0, cause_by = 'ann' WHERE id = 15",
        }
        for shown, change in shows.items():
            shutil.copyfile(honest(), file)
            carry_out(file, [f"UPDATE meta SET last = unixepoch('{shown}')", change, (FORGERIES / "mend.sql").read_text()])
            self.assertEqual([ran("lawful", file), recheck("lawful", file)], [Ran(0, "lawful\n", "")] * 2, shown)
            carry_out(file, [f"UPDATE meta SET last = unixepoch('{last}')"])
            words = f"the vault's last change is of {last}, and the last that an entry shows of {shown}\n"
            self.assertEqual([ran("lawful", file), recheck("lawful", file)], [Ran(0, "lawful\n", words)] * 2, shown)

    def test_seals(self) -> None:
        """Each seal is of the text that `events` prints for its moment."""
        vault = honest()
        seals = vault.with_name("seals").read_text().splitlines()
        for at, moment in enumerate(SEALED):
            text = recheck("events", vault, "--before", moment).out
            rows = text.splitlines()[1:]
            admitted = sum(it.split(",")[1] == "admitted" for it in rows)
            digest = hashlib.sha256(text.encode()).hexdigest()
            wanted = [f"before: {moment}", f"entries: {admitted}", f"events: {len(rows)}", f"sha256: {digest}"]
            check(seals[4 * at:4 * at + 4] == wanted, f"the seal of {moment} is {seals}, and the events make {wanted}")

    def test_progress(self) -> None:
        """A terminal shows how far a check of seals has come, and nothing else does."""
        command = [str(CONTRIB / "vault-recheck"), "check-seals", str(honest()), str(honest().with_name("seals"))]
        terminal, end = pty.openpty()
        with open(terminal, "rb", buffering=0) as told:
            done = subprocess.run(command, stdout=subprocess.PIPE, stderr=end, timeout=LIMIT)
            os.close(end)
            said = told.read(4_096)
        check(done.stdout == b"as sealed\n", f"on a terminal: {done.stdout!r}")
        check(said == b"\r15 of 15 entries\r\n", f"a terminal shows {said!r}")
        check(ran_words(*command) == Ran(0, "as sealed\n", ""), "without a terminal something is said")

    def test_log(self) -> None:
        """A change that stands in the log alone is read, and left out with --immutable, which is said."""
        written, copy = self.folder / "written", self.folder / "copy"
        shutil.copyfile(honest(), written)
        with contextlib.closing(sqlite3.connect(written, isolation_level=None)) as base:
            base.execute("PRAGMA wal_autocheckpoint = 0")
            base.execute("UPDATE settings SET until = until + 1 WHERE id = 2 AND n = 1")
            shutil.copyfile(written, copy)
            shutil.copyfile(f"{written}-wal", f"{copy}-wal")
        alone, both = recheck("compare", honest(), copy, "--immutable"), recheck("compare", honest(), copy)
        check(alone.out == "unaltered\n" and "copy-wal isn't read" in alone.err, f"without the log: {alone}")
        check(both.out.startswith("setting 1 of version 2 was") and both.status == 1, f"with the log: {both}")


# ---- what is kept outside

# The bytes of the held versions of damages.EXTERNAL that are kept outside.
OUTSIDE = {8: bytes(1_048_577), 9: b"hello", 11: b""}
# The same bytes are twice in the vault, as version 11 gets those of 9.
ONE_BODY = "UPDATE entries SET (size, digest) = (SELECT size, digest FROM entries WHERE id = 9) WHERE id = 11"
# More bytes than the memory that a look at them may take.
MANY, MOST_KIB = 300_000_000, 250_000


def place_of(content: bytes) -> str:
    name = hashlib.sha256(content).hexdigest()
    return f"{name[:2]}/{name[2:4]}/{name}"


class Bodies(Case):
    def setUp(self) -> None:
        super().setUp()
        self.vault, self.bodies = self.folder / "vault", self.folder / "bodies"
        self.vault.write_bytes(damages.beginnings()["external"] or b"")
        for it in OUTSIDE.values():
            self.place(it).parent.mkdir(parents=True)
            self.place(it).write_bytes(it)

    def place(self, content: bytes) -> pathlib.Path:
        return self.bodies / place_of(content)

    def changed(self, *statements: str) -> None:
        carry_out(self.vault, [*statements, (FORGERIES / "mend.sql").read_text()])
        check(recheck("audit", self.vault).out == "sound\n", "the vault isn't sound")

    def says(self, missing: list[str], differs: list[str]) -> None:
        """Fails unless a look finds just these."""
        lines = sorted([f"missing version {it}" for it in missing] + [f"differs version {it}" for it in differs])
        last = f"looked at 3: missing {len(missing)}, differs {len(differs)}, unread 0"
        said = recheck("bodies", self.vault, self.bodies)
        self.assertEqual((sorted(said.out.splitlines()[:-1]), said.out.splitlines()[-1]), (lines, last))
        self.assertEqual((said.status, said.err), (1 if lines else 0, ""))

    def test_there(self) -> None:
        """All are there, with files that no version has, and nothing is changed."""
        (self.bodies / "more").write_text("more")
        before = self.vault.read_bytes()
        self.says([], [])
        self.assertEqual(self.vault.read_bytes(), before)

    def test_none(self) -> None:
        """A removed version's bytes aren't looked for, and in an empty folder all others are missing."""
        shutil.rmtree(self.bodies)
        self.bodies.mkdir()
        self.says([f"{id}: there is no {place_of(it)}" for id, it in OUTSIDE.items()], [])
        (self.bodies / place_of(b"hello")[:2]).write_text("a file in the place of a folder")
        self.says([f"{id}: there is no {place_of(it)}" for id, it in OUTSIDE.items()], [])

    def test_other_bytes(self) -> None:
        """One bit in the last byte, a byte less, and a byte more."""
        large, other, place = OUTSIDE[8], OUTSIDE[8][:-1] + b"\1", place_of(OUTSIDE[8])
        digest = hashlib.sha256(other).hexdigest()
        for written, why in (
            (other, f"has the digest {digest}"),
            (large[:-1], "has 1048576 bytes, and the version has 1048577"),
            (large + b"x", "has 1048578 bytes, and the version has 1048577"),
        ):  # fmt: skip
            self.place(large).write_bytes(written)
            self.says([], [f"8: {place} {why}"])
        self.place(large).write_bytes(large)
        self.place(b"").write_bytes(b"x")
        self.says([], [f"11: {place_of(b'')} has 1 bytes, and the version has 0"])

    def test_no_file(self) -> None:
        """A link to the right bytes, a pipe, for which nobody waits, and a folder are no files."""
        place = self.place(b"hello")
        (self.folder / "elsewhere").write_bytes(b"hello")
        for make_other in (lambda: place.symlink_to(self.folder / "elsewhere"), lambda: os.mkfifo(place), place.mkdir):
            place.unlink()
            make_other()
            said = ran_words(CONTRIB / "vault-recheck", "bodies", self.vault, self.bodies, timeout=30)
            self.assertEqual((said.status, said.out.splitlines()[0]), (1, f"differs version 9: {place_of(b'hello')} is no file"))

    def test_one_body(self) -> None:
        """What is wrong with a body is said of each version that has it."""
        self.changed(ONE_BODY)
        self.says([], [])
        self.place(b"hello").write_bytes(b"hallo")
        why = f"{place_of(b'hello')} has the digest {hashlib.sha256(b'hallo').hexdigest()}"
        self.says([], [f"9: {why}", f"11: {why}"])
        # of two versions that register one digest and two sizes, one at least is wrong
        self.place(b"hello").write_bytes(b"hello")
        self.changed("UPDATE entries SET size = 6 WHERE id = 11")
        self.says([], [f"11: {place_of(b'hello')} has 5 bytes, and the version has 6"])

    def test_unread(self) -> None:
        """What can't be read is neither missing nor other bytes; root may read everything, so nobody asks."""
        self.folder.chmod(0o755)
        self.place(b"hello").chmod(0)
        how: dict[str, Any] = {"user": NOBODY, "group": NOBODY, "extra_groups": []} if os.geteuid() == 0 else {}
        said = ran_words(CONTRIB / "vault-recheck", "bodies", self.vault, self.bodies, "--immutable", **how)
        line = f"unread version 9: {place_of(b'hello')}: Permission denied\n"
        self.assertEqual(said, Ran(1, f"{line}looked at 3: missing 0, differs 0, unread 1\n", ""))

    def test_memory(self) -> None:
        """The bytes are never in memory as a whole."""
        digest = hashlib.sha256()
        for _ in range(MANY // 1_000_000):
            digest.update(bytes(1_000_000))
        self.changed(f"UPDATE entries SET size = {MANY}, digest = x'{digest.hexdigest()}' WHERE id = 8")
        place = self.bodies / digest.hexdigest()[:2] / digest.hexdigest()[2:4] / digest.hexdigest()
        place.parent.mkdir(parents=True)
        place.touch()
        os.truncate(place, MANY)
        limited = ("sh", "-c", f'ulimit -v {MOST_KIB} && exec "$@"', "sh")
        said = ran_words(*limited, CONTRIB / "vault-recheck", "bodies", self.vault, self.bodies)
        self.assertEqual(said, Ran(0, "looked at 3: missing 0, differs 0, unread 0\n", ""))

    def test_refused(self) -> None:
        """A folder that isn't there, a vault that keeps all contents inside, and a damaged one."""
        none, damaged = self.folder / "none", self.folder / "damaged"
        shutil.copyfile(self.vault, damaged)
        carry_out(damaged, ["DELETE FROM external WHERE id = 9"])
        for given, why in (
            ((self.vault, none), f"{none}: there is no such folder"),
            ((self.vault, self.vault), f"{self.vault}: there is no such folder"),
            ((honest(), self.bodies), f"{honest()}: a vault of schema 3 has all contents in its tables"),
            ((damaged, self.bodies), f"{damaged}: damaged contents: "),
        ):
            said = recheck("bodies", *given)
            self.assertEqual((said.status, said.out), (1, ""), given)
            self.assertTrue(said.err.startswith(f"vault-recheck: {why}"), said.err)

    def test_copied(self) -> None:
        """A copy that may keep contents outside has all that the vault has, and none of it outside."""
        copy = self.folder / "copy"
        self.printed("migrate", honest(), copy, "--external")
        self.assertEqual(recheck("compare", honest(), copy), Ran(0, "unaltered\n", ""))
        self.assertEqual(recheck("bodies", copy, self.bodies).out, "looked at 0: missing 0, differs 0, unread 0\n")
        looks_lawful(copy, "a copy that may keep contents outside")


# ---- the vaults of the examples


def examples() -> list[str]:
    scripts = [*EXAMPLES.glob("*.jsonl"), *EXAMPLES.glob("rows/*.jsonl"), *FORGERIES.glob("*.jsonl")]
    alone = [CONTRIB / "example-year.jsonl", damages.DAMAGES / "vault.jsonl"]
    found = [*damages.EARLIER, *sorted(str(it.relative_to(CONTRIB.parent)) for it in [*alone, *scripts])]
    return found if IS_LONG else found[::4]


@a_test_each(examples())
class Examples(Case):
    def look_at(self, name: str) -> None:
        """The vault that a script leaves, or the copy of one of an earlier version, is sound and lawful."""
        file = self.folder / "vault"
        if name in damages.EARLIER:
            (self.folder / "old").write_bytes(damages.beginnings()[name])
            self.printed("migrate", "old", file)
        else:
            make(file, (CONTRIB.parent / name).read_text(errors="surrogateescape"))
        looks_lawful(file, name)


# ---- generated vaults


class Office:
    """A vault that grows by random lines, given one by one to a `replay`, and what is known of it."""

    RIGHTS = ["config", "put", "retain", "hold", "get", "list", "delete", "delete-version", "run", "report", "bypass"]
    DEPTS = ["records", "court", "archive"]

    def __init__(self, file: pathlib.Path, chance: random.Random, is_external: bool) -> None:
        self.file, self.chance, self.is_external = file, chance, is_external
        self.now, self.done, self.given = 1_600_000_000, 0, 0
        self.buckets = {"docs": "records", "drafts": "records", "rolls": "court"}
        self.callers: dict[str, str] = {}
        self.entries: list[tuple[str, str, int]] = []
        self.lines = 0
        self.replay: Optional[subprocess.Popen[str]] = None

    def opens(self) -> None:
        """The program waits for lines from here on."""
        command = [PROGRAM, "replay", self.file]
        pipe = subprocess.PIPE
        self.replay = subprocess.Popen(command, stdin=pipe, stdout=pipe, stderr=subprocess.DEVNULL, text=True)

    def closes(self) -> None:
        """The program has ended, and its log is part of the file."""
        assert self.replay is not None
        self.replay.communicate(timeout=LIMIT)
        carry_out(self.file, [])

    def gives(self, who: str, do: str, **more: object) -> dict[str, Any]:
        """What is answered to a line, if it is done; else nothing."""
        assert self.replay is not None and self.replay.stdin is not None and self.replay.stdout is not None
        line: dict[str, object] = {"at": vault.moment_text(self.now), "as": who, "do": do, **more}
        self.replay.stdin.write(json.dumps(line) + "\n")
        self.replay.stdin.flush()
        reply: dict[str, Any] = json.loads(self.replay.stdout.readline())
        self.given += 1
        self.done += "ok" in reply
        answer = reply.get("ok", {})
        return answer if isinstance(answer, dict) else {}

    def founds(self) -> None:
        for it in self.DEPTS:
            self.gives("registrar", "add-dept", dept=it)
            self.hires(f"all-{it}", it, self.RIGHTS)
            self.hires(f"some-{it}", it, self.chance.sample(self.RIGHTS, 6))
        for name, dept in self.buckets.items():
            self.gives("registrar", "add-bucket", bucket=name, dept=dept)

    def hires(self, name: str, dept: str, rights: list[str]) -> None:
        self.gives("registrar", "add-caller", caller=name, dept=dept, rights=rights)
        self.callers[name] = dept

    def who(self, bucket: str) -> str:
        """A caller of the bucket's department, mostly the one who may do everything."""
        return f"{'all' if self.chance.random() < 0.8 else 'some'}-{self.buckets[bucket]}"

    def until(self) -> str:
        return vault.moment_text(self.now + self.chance.choice([60, DAY, 30 * DAY, 400 * DAY, 3_000 * DAY]))

    def lock(self) -> dict[str, object]:
        chance = self.chance
        found: dict[str, object] = {}
        if chance.random() < 0.4:
            found["mode"] = chance.choice(["GOVERNANCE", "GOVERNANCE", "COMPLIANCE"])
            found["until"] = self.until()
        if chance.random() < 0.2:
            found["hold"] = chance.choice(["ON", "OFF"])
        return found

    def content(self) -> dict[str, object]:
        text = "x" * self.chance.randrange(40)
        is_outside = self.is_external and self.chance.random() < 0.6
        return registered(text.encode()) if is_outside else {"text": text}

    def puts(self, bucket: str) -> None:
        key = self.chance.choice(["a", "b", "a/1", "tmp/x", "ü, \"y\"", f"k{self.chance.randrange(6)}"])
        more: dict[str, object] = {"bucket": bucket, "key": key, **self.content(), **self.lock()}
        do = "put"
        if self.chance.random() < 0.25:
            self.lines += 1
            do, more = "intake", {**more, "batch": self.chance.choice(["one", "two"]), "line": self.lines}
        admitted = self.gives(self.who(bucket), do, **more).get("version_id")
        if admitted:
            self.entries.append((bucket, key, admitted))

    def removes(self, bucket: str, key: str, id: int) -> None:
        more: dict[str, object] = {"bypass": True} if self.chance.random() < 0.5 else {}
        self.gives(self.who(bucket), "delete-version", bucket=bucket, key=key, id=id, **more)

    def marks(self, bucket: str, key: str, id: int) -> None:
        marker = self.gives(self.who(bucket), "delete", bucket=bucket, key=key).get("version_id")
        if marker:
            self.entries.append((bucket, key, marker))

    def retains(self, bucket: str, key: str, id: int) -> None:
        mode, bypass = self.chance.choice(["GOVERNANCE", "COMPLIANCE"]), self.chance.random() < 0.5
        more = {"bucket": bucket, "key": key, "id": id, "mode": mode, "until": self.until(), "bypass": bypass}
        self.gives(self.who(bucket), "set-retention", **more)

    def holds(self, bucket: str, key: str, id: int) -> None:
        hold = self.chance.choice(["ON", "OFF", "OFF"])
        self.gives(self.who(bucket), "set-hold", bucket=bucket, key=key, id=id, hold=hold)

    def moves(self, bucket: str) -> None:
        dept = self.chance.choice([it for it in self.DEPTS if it != self.buckets[bucket]])
        self.gives("registrar", "move-bucket", bucket=bucket, dept=dept)
        self.buckets[bucket] = dept

    def rules(self, bucket: str) -> None:
        days = self.chance.randrange(1, 60)
        keep = self.chance.choice([dict[str, int](), {"NewerNoncurrentVersions": 1}])
        rules: list[dict[str, object]] = [
            {"ID": "old", "Status": "Enabled", "Expiration": {"Days": days}},
            {"ID": "lone", "Status": "Enabled", "Expiration": {"ExpiredObjectDeleteMarker": True}},
            {"ID": "past", "Status": "Enabled", "NoncurrentVersionExpiration": {"NoncurrentDays": 1, **keep}},
        ]
        self.gives(f"all-{self.buckets[bucket]}", "set-rules", bucket=bucket, rules=self.chance.sample(rules, 2))

    def default(self, bucket: str) -> None:
        defaults: list[dict[str, object]] = [{}, {"mode": "GOVERNANCE", "days": 20}, {"mode": "COMPLIANCE", "years": 1}]
        self.gives(f"all-{self.buckets[bucket]}", "set-default", bucket=bucket, **self.chance.choice(defaults))

    def goes_on(self) -> None:
        """One line more, at the same moment or later."""
        chance = self.chance
        self.now += chance.choice([0, 0, 1, 60, 3_600, DAY, DAY, 20 * DAY])
        bucket = chance.choice(list(self.buckets))
        of_entries = [self.removes, self.retains, self.retains, self.holds, self.holds, self.marks]
        of_buckets = [self.moves, self.rules, self.default]
        turn = chance.random()
        if turn < 0.4 or not self.entries:
            self.puts(bucket)
        elif turn < 0.8:
            chance.choice(of_entries)(*chance.choice(self.entries[-12:]))
        elif turn < 0.9:
            self.gives(f"all-{self.buckets[bucket]}", "run", bucket=bucket)
        elif turn < 0.98:
            chance.choice(of_buckets)(bucket)
        else:
            self.gives("registrar", "close-caller", caller=f"some-{chance.choice(self.DEPTS)}")


def grow(office: Office, lines: int) -> None:
    office.opens()
    if not office.callers:
        office.founds()
    for _ in range(lines):
        office.goes_on()
    office.closes()


def columns_of(base: sqlite3.Connection) -> dict[str, list[str]]:
    """The columns of each table of a vault."""
    query = "SELECT t.name, c.name FROM sqlite_schema AS t JOIN pragma_table_info(t.name) AS c WHERE t.type = 'table'"
    found = collections.defaultdict[str, list[str]](list)
    for table, column in base.execute(f"{query} ORDER BY t.rowid, c.cid"):
        found[table].append(column)
    return found


class Change(NamedTuple):
    """A change of one row: in words, and whether commands may never make it."""

    text: str
    is_of_past: bool


def other_value(chance: random.Random, base: sqlite3.Connection, table: str, column: str, old: Any) -> Any:
    """Another value for a cell: near the old one, at a limit, absent, or that of another row."""
    (another,) = base.execute(f"SELECT {column} FROM {table} ORDER BY random() LIMIT 1").fetchone()
    if isinstance(old, int):
        near = [old + 1, old - 1, 1 - old, 0, old * 2, old + DAY, old - DAY, -1, 4_096, 2**40, None, another]
        return chance.choice(near)
    if isinstance(old, bytes):
        return chance.choice([old[:-1], old + b"x", bytes(32), None, another])
    return chance.choice(["", "eve", "A b", "records", "docs", "k1", "é", "\n", None, 7, another])


def take_out(chance: random.Random, base: sqlite3.Connection) -> Optional[Change]:
    """Takes a content out of the tables, as if it were kept outside."""
    ids = [id for id, in base.execute("SELECT id FROM contents ORDER BY id")]
    if not ids:
        return None
    id = chance.choice(ids)
    base.execute("INSERT INTO external VALUES (?)", (id,))
    base.execute("DELETE FROM contents WHERE id = ?", (id,))
    return Change(f"content {id} is taken out", True)


def change_row(chance: random.Random, base: sqlite3.Connection) -> Optional[Change]:
    """Changes a row at random; nothing where the file refuses it or has no row of that table."""
    tables = columns_of(base)
    if "external" in tables and chance.random() < 0.1:
        return take_out(chance, base)
    table = chance.choice([*tables, "entries", "entries", "settings", "settings", "tenures"])
    rows = base.execute(f"SELECT rowid, * FROM {table} ORDER BY rowid").fetchall()
    if not rows:
        return None
    (rowid, *row), columns = chance.choice(rows), tables[table]
    if chance.random() < 0.1:
        base.execute(f"DELETE FROM {table} WHERE rowid = ?", (rowid,))
        return Change(f"DELETE FROM {table}: {row}", table in ("entries", "settings", "tenures", "callers", "intake"))
    at = chance.randrange(len(columns))
    value = other_value(chance, base, table, columns[at], row[at])
    if value == row[at]:
        return None
    base.execute(f"UPDATE {table} SET {columns[at]} = ? WHERE rowid = ?", (value, rowid))
    text = f"UPDATE {table} SET {columns[at]} = {value!r} of {row}"
    return Change(text, is_of_past(table, columns[at], row[at], value))


def is_of_past(table: str, column: str, old: Any, new: Any) -> bool:
    """Whether no command changes such a cell so."""
    if table == "callers":
        return column != "closed" or new == 0
    if table == "entries":
        return column not in ("removed", "cause", "cause_by") or old is not None
    return table in ("settings", "tenures", "intake")


def mend(base: sqlite3.Connection) -> None:
    """Puts right what `verify` looks at."""
    base.executescript((FORGERIES / "mend.sql").read_text())
    if "external" in columns_of(base):
        held = "SELECT id FROM entries WHERE removed IS NULL AND NOT marker"
        base.execute(f"DELETE FROM external WHERE id NOT IN ({held})")


def forge(chance: random.Random, file: pathlib.Path) -> Optional[Change]:
    """Changes a row of a file at random, and half of the time mends what `verify` looks at."""
    with contextlib.closing(sqlite3.connect(file, isolation_level=None)) as base:
        try:
            change = change_row(chance, base)
            if change and chance.random() < 0.5:
                mend(base)
                change = change._replace(text=f"{change.text}, mended")
        except (sqlite3.Error, OverflowError):
            return None
        base.execute("PRAGMA wal_checkpoint(TRUNCATE)")
    return change


@a_test_each(str(it) for it in range(VAULTS))
class Generated(Case):
    def look_at(self, number: str) -> None:
        """A vault that random lines make, and forgeries of it."""
        chance, name = random.Random(f"{SEED} {number}"), f"generated vault {number} of seed {SEED}"
        file, half, seals = (self.folder / it for it in ("vault", "half", "seals"))
        is_external = int(number) % 2 == 1
        init(file, is_external)
        office = Office(file, chance, is_external)
        grow(office, 30)
        shutil.copyfile(file, half)
        seals.write_text(recheck("seal", half).out)
        grow(office, 30)
        check(office.done * 3 > office.given, f"{name}: {office.done} of {office.given} lines are done")
        looks_lawful(file, name)
        kept = recheck("check-seals", file, seals), recheck("compare", half, file)
        check([it.out for it in kept] == ["as sealed\n", "unaltered\n"], f"{name}: its first half: {kept}")
        for at in range(FORGERIES_OF_EACH):
            with self.subTest(forgery=at):
                self.look_at_forgery(chance, file, f"{name}, {at}")

    def look_at_forgery(self, chance: random.Random, file: pathlib.Path, name: str) -> None:
        forged = file.with_name("forged")
        shutil.copyfile(file, forged)
        change = forge(chance, forged)
        if change is None:
            return
        answer = answers_alike(forged, f"{name}: {change.text}")
        if answer == "sound":
            compare_with_program(forged, f"{name}: {change.text}")
            if change.is_of_past:
                found = recheck("compare", file, forged)
                check(found.status == 1 and found.out, f"{name}: {change.text}: not seen by compare: {found}")
