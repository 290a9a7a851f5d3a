"""Damages: vaults that are changed behind the program's back, and what it says of them.

The families are the files of `examples/damages`. In one of them `* NAME` begins a row. It is of the vault that the
program makes by `vault.jsonl`; where `@ BEGINNING` says so, it is of the one that it goes on to make by `moved.jsonl`
(`moved`), of a `new` vault, of `schema1` or `schema2` in `examples/earlier`, or of no file at all (`none`); or of a vault
that keeps contents outside, a new one (`new-external`), or the one that both `vault.jsonl` and `external.jsonl` make
(`external`). Each row has a copy of its own, named `vault`. `% SQL` are statements that Python's sqlite3 carries out in it, without a look at
foreign keys. After them come runs of the program as in a transcript: `$ WORDS`, `< ` a line of standard input, `> ` one
of standard output, `! ` one of standard error, and `= ` the status, which else is 0. Lines that begin with `#` say
something.

Statements have to change the file, and what only looks at it has to keep each byte. Where `verify` said `damaged`,
`register` has to be refused for the same table; where it said `sound`, there is a register.
"""

import functools
import re
import shlex

from trials.parts.program import EXAMPLES, Case, Ran, a_test_each, carry_out, check, ran, shared_folder

DAMAGES = EXAMPLES / "damages"
EARLIER = ("schema1", "schema2")
SCRIPTS = {
    "new": (), "vault": ("vault.jsonl",), "moved": ("vault.jsonl", "moved.jsonl"),
    "new-external": (), "external": ("vault.jsonl", "external.jsonl"),
}  # fmt: skip
# Those that keep contents outside.
EXTERNAL = ("new-external", "external")
BEGINNINGS = (*SCRIPTS, *EARLIER, "none")
VERIFY = ["verify", "vault"]
# A log of fewer bytes has no page in it.
LEAST_PAGE = 512


class Row:
    """What is changed in a vault, and what the program says then."""

    def __init__(self, place, name):
        self.place, self.name = place, name
        self.beginning, self.changes, self.runs = "vault", [], []


def rows_of(path):
    """The rows of a family, in their order."""
    found = []
    for number, line in enumerate(path.read_text().split("\n"), 1):
        mark, text = line[:1], line[2:]
        row = found[-1] if found else None
        run = row.runs[-1] if row and row.runs else None
        if mark == "*":
            found.append(Row(f"{path.name}:{number}", text))
        elif mark == "@" and row and not row.changes and not run and text in BEGINNINGS:
            row.beginning = text
        elif mark == "%" and row and not run:
            row.changes.append(text)
        elif mark == "$" and row:
            row.runs.append({"$": shlex.split(text), "<": "", ">": "", "!": "", "=": "0"})
        elif mark in ("<", ">", "!") and run:
            run[mark] += text + "\n"
        elif mark == "=" and run:
            run[mark] = text
        elif mark not in ("", "#"):
            check(False, f"{path}:{number}: no line of a row, or none that may stand there")
    is_whole = found and all(it.runs for it in found) and len({it.name for it in found}) == len(found)
    check(is_whole, f"{path}: no row, one without a run, or two of one name")
    return found


def named(said):
    """The lines of standard error that name a refusal, as `migrate: Damaged meta`; `faults.py` tries its words."""
    return "".join(line for line in said.splitlines(keepends=True) if re.match(r"[a-z]+: [A-Z]", line))


@functools.cache
def beginnings():
    """The files of which the rows are copies, by name; None where no file is."""
    folder = shared_folder() / "beginnings"
    folder.mkdir()
    for name, scripts in SCRIPTS.items():
        script = "".join((DAMAGES / it).read_text() for it in scripts)
        made = ran("init", name, *(["--external"] if name in EXTERNAL else []), cwd=folder)
        played = ran("replay", name, given=script, cwd=folder)
        replies = played.out.splitlines()
        are_answered = (made.status, played.status, len(replies)) == (0, 0, script.count("\n"))
        check(are_answered, f"{name} can't be made: {made}, {played}")
        refused = [it for it in replies if not it.startswith('{"ok":')]
        check(not refused, f"the lines of {name} aren't carried out: {refused}")
        carry_out(folder / name, [])
    for name in EARLIER:
        carry_out(folder / name, [(EXAMPLES / "earlier" / name / "rows.sql").read_text()])
    return {"none": None, **{it: (folder / it).read_bytes() for it in (*SCRIPTS, *EARLIER)}}


def state_of(file):
    """The bytes of a vault's file, if there is one, and whether a change may be in the log beside it."""
    log = file.with_name(f"{file.name}-wal")
    return file.read_bytes() if file.exists() else None, log.exists() and log.stat().st_size > LEAST_PAGE


ROWS = {f"{path.stem}: {row.name}": row for path in sorted(DAMAGES.glob("*.txt")) for row in rows_of(path)}


@a_test_each(ROWS)
class Damages(Case):
    def said(self, words, given=""):
        """What the program answers, with the names of its refusals alone."""
        done = self.ran(*words, given=given)
        return done._replace(err=named(done.err))

    def look_at_register(self, said):
        """Fails unless the register is refused for the table that the audit named, or is there where it named none."""
        register = self.said(["register", "vault"])
        if said == "sound\n":
            self.assertEqual((register.err, register.status), ("", 0), "the register")
        else:
            self.assertEqual(register, Ran(1, "", f"open: D{said[1:]}"), "the register")

    def look_at(self, name):
        """Fails unless the program does what each run wants, and changes nothing where it only looks or refuses."""
        row, file = ROWS[name], self.folder / "vault"
        beginning = beginnings()[row.beginning]
        if beginning is not None:
            file.write_bytes(beginning)
        if row.changes:
            carry_out(file, row.changes)
            self.assertNotEqual(file.read_bytes(), beginning, "the statements changed nothing")
        for run in row.runs:
            before, wanted = state_of(file), Ran(int(run["="]), run[">"], run["!"])
            self.assertEqual(self.said(run["$"], run["<"]), wanted, f"{row.place}: {run['$']}")
            if run["$"] == VERIFY:
                self.look_at_register(run[">"])
            if run["$"] == VERIFY or wanted.status:
                self.assertEqual(state_of(file), before, f"{row.place}: {run['$']} changed the file")
