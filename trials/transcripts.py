"""Transcripts among the examples: runs of the program over files, what it writes, and its statuses.

In a transcript, `$ WORDS` is a run of the program, and the lines after it are `< ` a line of standard input,
`> ` one of standard output, `! ` one of standard error, and `= ` the status. Between the runs, `+ PATH TEXT` makes a
file, `~ PATH TEXT` says that a file has just that in it, `% FILE STATEMENT` changes a vault's file behind the
program's back, by a statement of SQL that Python's sqlite3 carries out and that has to change one row, `- PATH` says
that nothing is at that path, and `? PATH` that a file is. `* PATH COUNT` makes a file of that many
letters, `@ PATH TARGET` a link that leads there, `| PATH` a FIFO, `/ PATH` a folder, and `& PATH STATEMENTS` a database
of another program, by statements of SQL, or by those of the file beside the transcript that `< FILE` names. From
`( PATH` to `) PATH` another program reads that database. All runs share one new folder. Lines that begin with `#`
say something. In a word between quotes, and in the text of a file, `\\xFF` stands for the byte of that number; in
the text of a file `\\n` ends a line. No run may end with another status than 0 and nothing on standard error.
"""

import contextlib
import os
import re
import shlex
import sqlite3
from typing import Any, Iterator

from trials.parts.program import EXAMPLES, Case, Ran, a_test_each, check, ran

# The marks of what is made beside files of a few bytes.
OTHERS = ("*", "@", "|", "/")
# The marks of what another program does.
READS = ("(", ")")


def bytes_of(text: str) -> bytes:
    """A text in which a backslash, an x and two digits stand for a byte."""
    return re.sub(rb"\\x([0-9A-F]{2})", lambda it: bytes.fromhex(it[1].decode()), os.fsencode(text))


def steps(text: str) -> Iterator[dict[str, Any]]:
    """The steps of a transcript, each with its line: runs, with what they are to write, and what is between them."""
    run = None
    for number, line in enumerate(text.split("\n"), 1):
        mark, rest = line[:1], line[2:]
        if mark == "$":
            run = {"line": number, "$": [bytes_of(it) for it in shlex.split(rest)], "<": "", ">": "", "!": "", "=": "0"}
            yield run
        elif mark in ("<", ">", "!"):
            run[mark] += rest + "\n"
        elif mark == "=":
            run["="] = rest
        elif mark in ("+", "~", "%", "&", "-", "?") or mark in OTHERS or mark in READS:
            yield {"line": number, mark: rest}
        elif mark not in ("", "#"):
            check(False, f"line {number} doesn't belong in a transcript")


def file_of(folder, rest):
    """A file of that folder, and what is said of its content."""
    path, _, content = rest.partition(" ")
    return folder / path, bytes_of(content).replace(b"\\n", b"\n")


def make_file(folder, rest):
    file, content = file_of(folder, rest)
    file.parent.mkdir(exist_ok=True)
    file.write_bytes(content)


def make_other(folder, mark, rest):
    """Makes a large file, or what is no regular file: a link, a FIFO or a folder."""
    path, _, more = rest.partition(" ")
    made = folder / path
    made.parent.mkdir(exist_ok=True)
    if mark == "*":
        made.write_bytes(b"a" * int(more))
    elif mark == "@":
        made.symlink_to(more)
    elif mark == "|":
        os.mkfifo(made)
    else:
        made.mkdir()


def has_content(folder, rest):
    file, content = file_of(folder, rest)
    return file.is_file() and file.read_bytes() == content


def change_row(folder, rest):
    """Whether the statement changed one row of the file."""
    path, _, statement = rest.partition(" ")
    with contextlib.closing(sqlite3.connect(folder / path)) as connection:
        with connection:
            return connection.execute(statement).rowcount == 1


def make_database(folder, rest, transcript):
    path, _, statements = rest.partition(" ")
    if statements.startswith("< "):
        statements = (transcript.parent / statements[2:]).read_text()
    with contextlib.closing(sqlite3.connect(folder / path)) as connection:
        connection.executescript(statements)


def read_on(readers, folder, path):
    """Another program begins to read a database, and goes on."""
    reader = sqlite3.connect(f"file:{folder / path}?mode=ro", uri=True, isolation_level=None)
    reader.execute("BEGIN")
    reader.execute("SELECT * FROM sqlite_schema").fetchall()
    readers[path] = reader


def run_program(folder, run):
    """What differs from what the run is to write; None where nothing does."""
    given = ran(*run["$"], given=run["<"], cwd=folder)
    wanted = Ran(int(run["="]), run[">"], run["!"])
    if given != wanted:
        return f"wanted {wanted}, got {given}"
    return "it is refused without a word" if given.status and not given.err else None


def make_or_read(folder, step, transcript, readers):
    """Makes what a step says, or has another program read it."""
    ((mark, rest),) = ((mark, rest) for mark, rest in step.items() if mark != "line")
    if mark in OTHERS:
        make_other(folder, mark, rest)
    elif mark == "+":
        make_file(folder, rest)
    elif mark == "&":
        make_database(folder, rest, transcript)
    elif mark == "(":
        read_on(readers, folder, rest)
    elif mark == ")":
        readers.pop(rest).close()


def what_differs(folder, step):
    """What isn't as a step says; None where all is."""
    if "~" in step and not has_content(folder, step["~"]):
        return "the file isn't there, or has something else in it"
    if "%" in step and not change_row(folder, step["%"]):
        return "the statement didn't change one row"
    if "-" in step and (folder / step["-"]).exists():
        return f"{step['-']} is there"
    if "?" in step and not (folder / step["?"]).is_file():
        return f"{step['?']} isn't there"
    return None


def names() -> list[str]:
    """The transcripts among the examples, but for those of the desk (`desk_mistakes.py`)."""
    texts = {it.stem: it.read_text() for it in sorted(EXAMPLES.glob("*.txt"))}
    return [name for name, text in texts.items() if "\n$ " in text and not name.startswith("desk-")]


@a_test_each(names())
class Transcripts(Case):
    def look_at(self, name):
        """Carries out the steps of a transcript."""
        transcript, readers, count = EXAMPLES / f"{name}.txt", {}, 0
        for step in list(steps(transcript.read_text())):
            if "$" in step:
                wrong = run_program(self.folder, step)
            else:
                make_or_read(self.folder, step, transcript, readers)
                wrong = what_differs(self.folder, step)
            check(not wrong, f"{transcript}:{step['line']}: {wrong}")
            count += "$" in step
        check(count, f"{transcript} has no run")
