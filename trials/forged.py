"""Forged: forgeries at random, each in a vault that random lines make.

A forgery is drawn from KINDS, which are those of the rows of `examples/forgeries`: where it may be, which statements
make it, and, where it may pass, the words by which a page says that nothing in the file shows it. Its place and its
values are drawn too; `mend.sql` follows. Every other vault keeps contents outside. `verify` and `audit` have to answer
alike, and of a sound file the program and `vault-recheck` the same to `lawful`, with the name of the rule. What neither
`lawful` nor `coherent` finds has to be of a kind that may pass. For each kind a line says how many were damaged,
unlawful, incoherent, and passed.

There are 1,000 vaults with a forgery each. TRIALS_VAULTS is another number, and TRIALS_SEED, which is 1 if nothing is
said, has other ones made.
"""

import collections
import contextlib
import hashlib
import os
import pathlib
import random
import sqlite3
import tempfile
from concurrent.futures import ProcessPoolExecutor
from multiprocessing import get_context
from typing import Any, NamedTuple

from trials.parts.program import TOP, Case, check
from trials.recheck import DAY, SEED, Office, answers_alike, grow, init, judged_alike, mend, recheck

TAKES_LONG = True
VAULTS = int(os.environ.get("TRIALS_VAULTS", 1_000))
COURT, AUDITOR = "COURT", "AUDITOR"


class Kind(NamedTuple):
    """A kind of forgery: the rows where it may be, the statements that make it, and the words of a page on what passes."""

    name: str
    place: str
    statements: str
    page: str = ""
    words: str = ""


INVENTED = (COURT, "A past that keeps the rules can be invented")
ADDED = (COURT, "rows that were added in the name of a caller who had the right")
WEAKER = (COURT, "a weaker first retention than the true one")
LACKING = (COURT, "It may lack the last settings of a version, or its removal")
EARLIER = (COURT, "another program can write an earlier date")
CUT_OFF = (COURT, "may have been cut off at the end without a trace")
ANOTHER = (COURT, "Whoever may write to the file can make another sound one")
RIGHTS = (AUDITOR, "rights or department of a caller; a closed caller is open; a caller, a department or a bucket is gone")
EMPTY = (AUDITOR, "the department of a bucket that holds nothing")
LINES = (AUDITOR, "a line of an intake")
MOVES = (AUDITOR, "the number of moves of buckets, raised by one")
AT_ANY_TIME = (AUDITOR, "a caller, a department or a bucket more; a caller who is closed; a bucket's default and rules")
RAISED = (AUDITOR, "the last moment, raised")
TAKEN_OUT = (AUDITOR, "a content is taken out of the tables, as if it were kept outside")

# `settings` with the last number, the first moment and the last one of each version.
LAST = "SELECT id, max(n) AS n, max(moment) AS moment FROM settings GROUP BY id"
HELD = f"SELECT e.id, coalesce(s.moment, e.admitted) AS moment FROM entries AS e LEFT JOIN ({LAST}) AS s ON s.id = e.id"
SET = "INSERT INTO settings SELECT :id, :n + 1, max(:moment, :then), :caller, "
KEPT = "mode, until, :bit, 0 FROM settings WHERE id = :id AND n = :n"
GONE = "UPDATE entries SET removed = max(:moment, :then), cause = "
FIRST = "SELECT id, moment FROM settings WHERE n = 1"
MOVED = "SELECT DISTINCT n, moment FROM tenures WHERE n > 0"

KINDS = [
    # settings
    Kind("a hold is set or lifted", LAST, SET + KEPT, *ADDED),
    Kind("a retention is set", LAST, SET + ":mode, :end, hold, :bypass FROM settings WHERE id = :id AND n = :n", *ADDED),
    Kind("a retention is taken off", LAST, SET + "0, NULL, hold, :bypass FROM settings WHERE id = :id AND n = :n", *ADDED),
    Kind("a setting after the last moment", LAST, "INSERT INTO settings SELECT :id, :n + 1, (SELECT last FROM meta) + 1,"
         " :caller, " + KEPT),
    Kind("an earlier end in all settings", "SELECT DISTINCT id FROM settings WHERE until IS NOT NULL",
         "UPDATE settings SET until = until - :days * 86400 WHERE id = :id", *WEAKER),
    Kind("an earlier end in the last setting", f"SELECT * FROM ({LAST}) WHERE n > 1",
         "UPDATE settings SET until = until - :days * 86400 WHERE id = :id AND n = :n", *ADDED),
    Kind("the last setting is gone", f"SELECT * FROM ({LAST}) WHERE n > 1",
         "DELETE FROM settings WHERE id = :id AND n = :n", *LACKING),
    Kind("a later setting by another caller", "SELECT id, n FROM settings WHERE n > 1",
         "UPDATE settings SET caller = :caller WHERE id = :id AND n = :n", *ADDED),
    Kind("a bypass that was none, or was one", "SELECT id, n FROM settings",
         "UPDATE settings SET bypass = 1 - bypass WHERE id = :id AND n = :n"),
    Kind("a later setting of another moment", "SELECT id, n FROM settings WHERE n > 1",
         "UPDATE settings SET moment = :then WHERE id = :id AND n = :n", *INVENTED),
    Kind("two settings change places", "SELECT id, n FROM settings WHERE n > 2",
         "UPDATE settings SET n = n + 1000 WHERE id = :id AND n IN (:n - 1, :n);"
         "UPDATE settings SET n = 2 * :n + 999 - n WHERE id = :id AND n > 1000", *INVENTED),
    Kind("a first setting after its admission", FIRST, "UPDATE settings SET moment = moment + 1 WHERE id = :id AND n = 1"),
    Kind("a first setting by another caller", FIRST, "UPDATE settings SET caller = 'eve' WHERE id = :id AND n = 1"),
    Kind("a first setting with a hold", "SELECT id FROM settings WHERE n = 1 AND hold = 0",
         "UPDATE settings SET hold = 1 WHERE id = :id AND n = 1", *ADDED),
    Kind("a first setting with another retention", FIRST,
         "UPDATE settings SET mode = :mode, until = :end WHERE id = :id AND n = 1", *WEAKER),
    Kind("a first retention that ends at once", FIRST,
         "UPDATE settings SET mode = :mode, until = moment WHERE id = :id AND n = 1"),
    # removals
    Kind("removed by a request", f"{HELD} WHERE removed IS NULL", GONE + "0, cause_by = :caller WHERE id = :id", *ADDED),
    Kind("removed by a bypass", f"{HELD} WHERE removed IS NULL", GONE + "1, cause_by = :caller WHERE id = :id", *ADDED),
    Kind("removed by a rule", f"{HELD} WHERE removed IS NULL", GONE + "2, cause_by = 'old' WHERE id = :id", *INVENTED),
    Kind("removed by a caller who never was", f"{HELD} WHERE removed IS NULL",
         GONE + ":bit, cause_by = 'eve' WHERE id = :id"),
    Kind("removed before its last setting", "SELECT id, min(moment) AS moment FROM settings GROUP BY id"
         " HAVING max(moment) > min(moment)",
         "UPDATE entries SET removed = :moment, cause = 0, cause_by = :caller WHERE id = :id"),
    Kind("a removal with another cause", "SELECT id FROM entries WHERE removed IS NOT NULL",
         "UPDATE entries SET cause = (cause + 1 + :bit) % 3 WHERE id = :id", *INVENTED),
    Kind("a removal by another caller", "SELECT id FROM entries WHERE removed IS NOT NULL AND cause < 2",
         "UPDATE entries SET cause_by = :caller WHERE id = :id", *ADDED),
    Kind("a removal of another moment", "SELECT id FROM entries WHERE removed IS NOT NULL",
         "UPDATE entries SET removed = max(admitted, :then) WHERE id = :id", *INVENTED),
    Kind("a removal is gone", "SELECT id, marker, size FROM entries WHERE removed IS NOT NULL",
         "UPDATE entries SET removed = NULL, cause = NULL, cause_by = NULL WHERE id = :id;"
         "INSERT INTO contents SELECT :id, :bytes WHERE NOT :marker", *LACKING),
    # admissions and tenures
    Kind("a version admitted by another caller", "SELECT id, admitted_by FROM entries WHERE NOT marker",
         "UPDATE entries SET admitted_by = 'eve' WHERE id = :id"),
    Kind("admitted and first set by another caller", "SELECT id FROM entries WHERE NOT by_rule",
         "UPDATE entries SET admitted_by = :caller WHERE id = :id;"
         "UPDATE settings SET caller = :caller WHERE id = :id AND n = 1", *ADDED),
    Kind("a version admitted by a rule", "SELECT id FROM entries WHERE NOT marker",
         "UPDATE entries SET by_rule = 1, admitted_by = 'old' WHERE id = :id"),
    Kind("a marker by a rule", "SELECT id FROM entries WHERE marker AND NOT by_rule",
         "UPDATE entries SET by_rule = 1, admitted_by = 'old' WHERE id = :id", *INVENTED),
    Kind("an earlier admission", "SELECT id, coalesce(lag(admitted) OVER (ORDER BY id), 0) AS begin, admitted FROM entries",
         "UPDATE entries SET admitted = (:begin + :admitted) / 2 WHERE id = :id;"
         "UPDATE settings SET moment = (:begin + :admitted) / 2 WHERE id = :id AND n = 1;"
         "UPDATE tenures SET moment = (:begin + :admitted) / 2 WHERE id = :id AND n = 0", *EARLIER),
    Kind("another content, with its digest", "SELECT id FROM entries WHERE removed IS NULL AND NOT marker",
         "UPDATE contents SET bytes = :bytes WHERE id = :id;"
         "UPDATE entries SET size = length(:bytes), digest = :digest WHERE id = :id", *ANOTHER),
    Kind("a content is taken out", "SELECT c.id FROM contents AS c JOIN sqlite_schema AS s ON s.name = 'external'",
         "INSERT INTO external VALUES (:id); DELETE FROM contents WHERE id = :id", *TAKEN_OUT),
    Kind("another key", "SELECT id FROM entries", "UPDATE entries SET key = 'z' WHERE id = :id", *ANOTHER),
    Kind("another bucket", "SELECT e.id, b.name FROM entries AS e JOIN buckets AS b ON b.name <> e.bucket",
         "UPDATE entries SET bucket = :name WHERE id = :id", *INVENTED),
    Kind("the last entry is gone", "SELECT max(id) AS id FROM entries",
         "".join(f"DELETE FROM {it} WHERE id = :id;" for it in ("contents", "settings", "tenures", "intake", "entries")),
         *CUT_OFF),
    Kind("the first tenure is of another department", "SELECT t.id, d.name FROM tenures AS t JOIN departments AS d"
         " ON d.name <> t.dept WHERE n = 0", "UPDATE tenures SET dept = :name WHERE id = :id AND n = 0"),
    Kind("a move of another moment, in one version", "SELECT id, n FROM tenures WHERE n > 0",
         "UPDATE tenures SET moment = :then WHERE id = :id AND n = :n", *INVENTED),
    Kind("a move of another moment, in all versions", MOVED, "UPDATE tenures SET moment = :then WHERE n = :n", *INVENTED),
    Kind("a move to another department, in one version", "SELECT t.id, t.n, d.name FROM tenures AS t JOIN departments AS d"
         " ON d.name <> t.dept WHERE n > 0", "UPDATE tenures SET dept = :name WHERE id = :id AND n = :n", *INVENTED),
    Kind("a move is gone from a version", "SELECT id, n FROM tenures WHERE n > 0",
         "DELETE FROM tenures WHERE id = :id AND n = :n", *INVENTED),
    # callers, buckets, lines and counters
    Kind("a right more or less", "SELECT name FROM callers WHERE name <> 'registrar'",
         "UPDATE callers SET rights = (rights | :right) - (rights & :right) WHERE name = :name", *RIGHTS),
    Kind("a caller of another department", "SELECT c.name, d.name AS dept FROM callers AS c JOIN departments AS d"
         " ON d.name <> c.dept", "UPDATE callers SET dept = :dept WHERE name = :name", *RIGHTS),
    Kind("a caller is gone", "SELECT name FROM callers WHERE name <> 'registrar'",
         "DELETE FROM callers WHERE name = :name", *RIGHTS),
    Kind("a caller is open, or is closed", "SELECT name FROM callers",
         "UPDATE callers SET closed = 1 - closed WHERE name = :name", *RIGHTS),
    Kind("the registrar has another right", "SELECT 1 AS one",
         "UPDATE callers SET rights = 1 | (:right << 1) WHERE name = 'registrar'"),
    Kind("the registrar is of a department", "SELECT name FROM departments",
         "UPDATE callers SET dept = :name WHERE name = 'registrar'"),
    Kind("the registrar is gone", "SELECT 1 AS one", "DELETE FROM callers WHERE name = 'registrar'"),
    Kind("an empty bucket of another department", "SELECT b.name, d.name AS dept FROM buckets AS b JOIN departments AS d"
         " ON d.name <> b.dept WHERE NOT EXISTS (SELECT * FROM entries WHERE bucket = b.name AND removed IS NULL)",
         "UPDATE buckets SET dept = :dept WHERE name = :name", *EMPTY),
    Kind("a line of an intake is gone", "SELECT line, batch, bucket FROM intake",
         "DELETE FROM intake WHERE (line, batch, bucket) = (:line, :batch, :bucket)", *LINES),
    Kind("a line of an intake asked for another lock", "SELECT line, batch, bucket FROM intake", "UPDATE intake"
         " SET mode = :mode, until = :end WHERE (line, batch, bucket) = (:line, :batch, :bucket)", *LINES),
    Kind("moves more than were made", "SELECT 1 AS one", "UPDATE meta SET moves = moves + 1 + :bit", *MOVES),
    Kind("a caller more", "SELECT name FROM departments", "INSERT INTO callers VALUES ('eve', :name, 4095, 0)", *AT_ANY_TIME),
    Kind("another default", "SELECT name FROM buckets",
         "UPDATE buckets SET mode = :mode, days = :days, years = NULL WHERE name = :name", *AT_ANY_TIME),
    Kind("the last moment is raised", "SELECT 1 AS one", "UPDATE meta SET last = last + :days * 86400", *RAISED),
]


def drawn(chance: random.Random, base: sqlite3.Connection, row: sqlite3.Row) -> dict[str, Any]:
    """The values of a forgery: those of its place, and others at random."""
    callers = [name for name, in base.execute("SELECT name FROM callers ORDER BY name")]
    (last,) = base.execute("SELECT last FROM meta").fetchone()
    found = {it: row[it] for it in row.keys()}
    bytes = b"x" * found["size"] if "size" in found else chance.randbytes(chance.randrange(40))
    then = chance.randint(1_600_000_000, last)
    return {
        "then": then, "end": then + chance.randrange(1, 2_000) * DAY, "days": chance.randrange(1, 2_000),
        "caller": chance.choice([*callers, "eve"]), "mode": chance.choice([1, 2]), "bit": chance.choice([0, 1]),
        "bypass": chance.choice([0, 1]), "right": 1 << chance.randrange(12), "bytes": bytes,
        "digest": hashlib.sha256(bytes).digest(), **found,
    }


def forge(chance: random.Random, file: pathlib.Path) -> tuple[Kind, str]:
    """Makes a forgery in the file, of a kind and at a place at random, and puts right what `verify` looks at; and says in
    words what it made."""
    with contextlib.closing(sqlite3.connect(file, isolation_level=None)) as base:
        base.row_factory = sqlite3.Row
        while not (rows := base.execute((kind := chance.choice(KINDS)).place).fetchall()):
            pass
        values = drawn(chance, base, chance.choice(rows))
        for it in kind.statements.rstrip(";").split(";"):
            base.execute(it, values)
        mend(base)
        base.execute("PRAGMA wal_checkpoint(TRUNCATE)")
    return kind, f"{kind.name}, {values}"


def outcome(number: int) -> tuple[str, str]:
    """The kind of a vault's forgery, and what comes of it."""
    chance, name = random.Random(f"forged {SEED} {number}"), f"vault {number} of seed {SEED}"
    with tempfile.TemporaryDirectory(prefix="forged-") as folder:
        file = pathlib.Path(folder) / "vault"
        init(file, number % 2 == 1)
        grow(Office(file, chance, number % 2 == 1), chance.choice([10, 60, 60]))
        kind, words = forge(chance, file)
        if answers_alike(file, f"{name}: {words}") != "sound":
            return kind.name, "damaged"
        if judged_alike("lawful", file, f"{name}: {words}").status:
            return kind.name, "unlawful"
        if recheck("coherent", file).status:
            return kind.name, "incoherent"
        check(kind.words, f"{name}: {words}: it passes")
        return kind.name, "passed"


class Forged(Case):
    def test_pages(self) -> None:
        """The pages have the words by which a forgery passes."""
        pages = {it: (TOP / "docs" / f"{it}.md").read_text() for it in (COURT, AUDITOR)}
        missing = [it.name for it in KINDS if it.words and it.words not in pages[it.page]]
        self.assertEqual(missing, [])

    def test_forgeries(self) -> None:
        """A forgery in each of the vaults, and how many of each kind were found."""
        found: dict[str, collections.Counter[str]] = {it.name: collections.Counter() for it in KINDS}
        with ProcessPoolExecutor(len(os.sched_getaffinity(0)), get_context("fork")) as pool:
            for name, came in pool.map(outcome, range(VAULTS), chunksize=8):
                found[name][came] += 1
        columns = ["damaged", "unlawful", "incoherent", "passed"]
        rows = [(name, [counts[it] for it in columns]) for name, counts in found.items()]
        rows.append(("all", [sum(counts[at] for _, counts in rows) for at in range(len(columns))]))
        print("\n".join([f"{'forgery':48}" + "".join(f"{it:>11}" for it in columns),
                         *(f"{name:48}" + "".join(f"{it:11}" for it in counts) for name, counts in rows)]), flush=True)
        self.assertEqual(sum(rows[-1][1]), VAULTS)
