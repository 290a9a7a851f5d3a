"""Allocations: each of a script's or a job's is refused in turn, and out of memory loses nothing.

The script is examples/every-command.jsonl, given to `replay`. In each run one allocation of the program is refused,
from its first one on, by a library that is loaded into it. The run is right where one of these holds:

  - A command, but no lifecycle run, answered Memory. Then each later reply is that of an untroubled
    run of the script without that line.
  - A lifecycle run was stopped after some changes, perhaps none. Then each later reply is that of an
    untroubled run of the script in which other commands make just these changes in its place.
  - The program ended with status 1 and `replay: Memory`, and wrote the replies of the first lines whole;
    or it ended so with `words: Memory`, and wrote nothing.
  - The replies are those of the untroubled run: the refusal made no difference.

As the refused allocation moves on, so does the line that it troubles, and each line is troubled by
some. After the last one the search ends with some runs in which nothing is refused.

Every right outcome is altered, in ways that would be faults of the vault, and the trial fails where it
lets one through.

Then jobs over a file have an allocation refused in each run: some of those of `init`, `verify` and `migrate`, and of other
jobs some of those after the vault is open; with `--long` each of them. A run is right where one of these holds:

  - The reply is the refusal `Memory`, and the vault is unchanged.
  - A lifecycle run was stopped by `Memory`.
  - An intake of three rows, of which the second is refused, was stopped by `Memory` after some of them. These are in the
    vault, and the same words given again take in the others.
  - The program ended with status 1 and `words: Memory`, `open: Memory`, or its own name with `Memory`, and the job is done or
    not. An `init` or a `migrate` that isn't done is done by the same words given again.
  - Nothing differs from the untroubled run, or nothing is said in words of the refused row.
"""

import collections
import contextlib
import itertools
import json
import os
import pathlib
import re
import shutil
import sqlite3
import sys
from concurrent.futures import ThreadPoolExecutor
from typing import NamedTuple

from trials.parts.in_turn import NEVER, each_in_turn, first_number
from trials.parts.program import EXAMPLES, IS_LONG, PROGRAM, Case, Ran, check, make_office, needs, printed, ran_words
from trials.preload.loaded import Loaded

SCRIPT = EXAMPLES / "every-command.jsonl"
JOBS = len(os.sched_getaffinity(0))
# How many runs in a row that nothing troubles end the search.
ENOUGH = 100
# How long one run may take, in seconds.
LIMIT = 60

MEMORY = '{"error":{"code":"Memory","n":22}}'
STOPPED = re.compile(r'\{"stopped":\{"changes":(\d+),"fault":"Memory"\}\}')
NO_WORDS, WANT = "words: Memory", "replay: Memory"

# For each run of the script, the commands that make its changes, one by one.
CHANGES = [
    [
        {"do": "delete", "key": "a/1"},
        {"do": "delete-version", "key": "a/1", "id": 1},
        {"do": "delete", "key": "a/2"},
        {"do": "delete-version", "key": "m/1", "id": 7},
    ],
    [],
]


class Outcome:
    """What the program wrote, its status, and what it said on standard error."""

    def __init__(self, replies, status=0, said=""):
        self.replies, self.status, self.said = replies, status, said


class Reference:
    """Replies of untroubled runs: of the whole script, and with a line replaced by others."""

    def __init__(self, whole, without, changed):
        # without[i]: the replies after line i where it is left out; changed[i][k]: those where the
        # first k changes of the run at line i are made in its place.
        self.whole, self.without, self.changed = whole, without, changed


class Wrong(AssertionError):
    """Why out of memory can't have an outcome."""


def judge(reference, outcome):
    """The line that was troubled, counted from 0, and how; `none` where none was."""
    replies, whole = outcome.replies, reference.whole
    if outcome.status == 1:
        if outcome.said != WANT and (replies or outcome.said != NO_WORDS):
            raise Wrong(f"status 1, with {outcome.said!r} on standard error")
        if len(replies) >= len(whole) or replies != whole[: len(replies)]:
            raise Wrong("what was written isn't the whole replies to the first lines")
        return len(replies), "ended"
    if outcome.status != 0 or outcome.said:
        raise Wrong(f"status {outcome.status}, with {outcome.said!r} on standard error")
    if len(replies) != len(whole):
        raise Wrong(f"{len(replies)} replies to {len(whole)} lines")
    if replies == whole:
        return len(whole), "none"
    line = next(i for i, reply in enumerate(whole) if replies[i] != reply)
    stopped = STOPPED.fullmatch(replies[line])
    if replies[line] == MEMORY and line not in reference.changed:
        wanted, how = reference.without[line], "memory"
    elif stopped and int(stopped[1]) < len(reference.changed.get(line, [])):
        wanted, how = reference.changed[line][int(stopped[1])], "stopped"
    else:
        raise Wrong(f"line {line + 1} is answered {replies[line]}")
    for i, reply in enumerate(wanted, line + 1):
        if replies[i] != reply:
            raise Wrong(f"after line {line + 1}, line {i + 1} has {replies[i]} and not {reply}")
    return line, how


def altered(reference, outcome, line, how):
    """Outcomes that are wrong, each made of a right one by one change, with what the change is."""
    replies, device = outcome.replies, '{"error":{"code":"Device","n":23}}'

    def put(at, reply):
        return Outcome(replies[:at] + [reply] + replies[at + 1:], outcome.status, outcome.said)

    for at in {0, line - 1, line + 1, len(replies) - 1}:
        if 0 <= at < len(replies):
            yield f"reply {at + 1} is another", put(at, device)
    yield "another status", Outcome(replies, 1 - outcome.status, outcome.said)
    if how == "ended":
        yield "no message", Outcome(replies, 1)
        yield "a reply to the line that wasn't read", Outcome(replies + [MEMORY], 1, outcome.said)
        if replies:
            yield "a cut reply", put(len(replies) - 1, replies[-1][:-1])
        return
    yield "a lost reply", Outcome(replies[:-1])
    yield "a reply too many", Outcome(replies + replies[-1:])
    if how == "none":
        return
    yield "another fault", put(line, device)
    if how == "stopped":
        yield "a run that is refused", put(line, MEMORY)
    others = {"the line was carried out": reference.whole[line + 1:]}
    if line > 0:
        others["an earlier line was undone"] = reference.without[line - 1][1:]
    for k, rest in enumerate(reference.changed.get(line, [])):
        others[f"{k} changes were made"] = rest
    for what, rest in others.items():
        if rest != replies[line + 1:]:
            yield what, Outcome(replies[: line + 1] + rest)


def fault_in(said):
    """The first line of standard error that isn't on a line of the script, as `replay: Memory`; or nothing."""
    return next((it for it in said.splitlines() if not re.match("line [0-9]+: ", it)), "")


class Program:
    """The program with one of its allocations refused."""

    def __init__(self, folder):
        self.folder = folder
        self.program = Loaded(PROGRAM, folder)

    def run(self, lines, number=NEVER):
        """What it answers to a script where that allocation is refused, with nothing else in its environment."""
        script = "".join(it + "\n" for it in lines)
        with self.program.refusing(number) as words:
            done = ran_words(*words, "replay", given=script, env={}, timeout=LIMIT, cwd=self.folder)
        replies = done.out.split("\n")
        last = replies.pop()
        if last:
            replies.append(f"{last} (with no line's end)")
        return Outcome(replies, done.status, fault_in(done.err))


def references(lines):
    """Scripts for the untroubled runs."""
    cases = {"whole": lines}
    runs = iter(CHANGES)
    for i, line in enumerate(lines):
        cases[f"without-{i}"] = lines[:i] + lines[i + 1:]
        asked = json.loads(line)
        if asked["do"] != "run":
            continue
        changes = next(runs)
        for k in range(len(changes) + 1):
            made = [json.dumps({**asked, **it}) for it in changes[:k]]
            cases[f"changed-{i}-{k}"] = lines[:i] + made + lines[i + 1:]
    return cases


def check_references(lines, outcomes, wanted):
    """The untroubled replies, which have to be those that are kept beside the script."""
    for name in references(lines):
        if outcomes[name].status != 0 or outcomes[name].said or MEMORY in outcomes[name].replies:
            raise Wrong(f"{name}: an allocation was refused, or the program failed")
    whole = outcomes["whole"].replies
    if whole != wanted:
        raise Wrong("the replies aren't those beside the script")
    without = [outcomes[f"without-{i}"].replies[i:] for i in range(len(lines))]
    changed = {}
    for name in references(lines):
        if name.startswith("changed-"):
            i, k = map(int, name.split("-")[1:])
            made = outcomes[name].replies[i:i + k]
            if any(not it.startswith('{"ok":') for it in made):
                raise Wrong(f"{name}: a change of the run can't be made by hand: {made}")
            changed.setdefault(i, []).append(outcomes[name].replies[i + k:])
    for i, rests in changed.items():
        if f'"changes":{len(rests) - 1},' not in whole[i] or rests[-1] != whole[i + 1:]:
            raise Wrong(f"line {i + 1}: CHANGES has other changes than the run makes")
    return Reference(whole, without, changed)


def count_refused(reference, here, line, how):
    """How many alterations of an outcome were refused; fails where one is let through."""
    count = 0
    for what, other in altered(reference, here, line, how):
        try:
            judge(reference, other)
        except Wrong:
            count += 1
            continue
        raise Wrong(f"line {line + 1}, {how}: an altered outcome is let through: {what}")
    return count


def sweep(program, lines, reference):
    """Judges each run. Fails where one is wrong, or a line is troubled by no refusal."""
    troubled, ways, last, untroubled = set(), collections.Counter(), 0, 0

    def judged(number):
        here = program.run(lines, number)
        return here, *judge(reference, here)

    runs = each_in_turn(JOBS, judged, itertools.count(1), ENOUGH, lambda came: came[2] == "none")
    for number, (here, line, how) in runs:
        if how == "none":
            untroubled += 1
            continue
        check(line >= last, f"allocation {number} troubles line {line + 1}, after line {last + 1}")
        ways["none"] += untroubled
        last, untroubled = line, 0
        troubled.add(line)
        ways[how] += 1
        ways["altered outcomes, each refused"] += count_refused(reference, here, line, how)
    passed = sorted(it + 1 for it in set(range(len(lines))) - troubled)
    check(not passed, f"no allocation of lines {passed} was refused")
    return ways


@needs(os.environ.get("CC", "cc"))
class Allocations(Case):
    def test_script(self):
        lines = [it for it in SCRIPT.read_text().splitlines() if it]
        program = Program(self.folder)
        with ThreadPoolExecutor(JOBS) as pool:
            cases = references(lines)
            outcomes = dict(zip(cases, pool.map(program.run, cases.values())))
        reference = check_references(lines, outcomes, SCRIPT.with_suffix(".out").read_text().splitlines())
        print("allocations:", dict(sweep(program, lines, reference)))


AT = ["--at", "2024-02-15T09:00:00Z"]
ANN, REGISTRAR = ["--as", "ann", *AT], ["--as", "registrar", *AT]
MADE = """{"at":"2024-01-15T09:00:00Z","as":"ann","do":"put","bucket":"docs","key":"a","text":"of a"}
{"at":"2024-01-15T09:00:00Z","as":"ann","do":"delete-version","bucket":"docs","key":"a","id":1}
{"at":"2024-01-15T09:00:00Z","as":"ann","do":"put","bucket":"docs","key":"b","text":"of b"}
{"at":"2024-01-15T09:00:00Z","as":"ann","do":"set-rules","bucket":"docs","rules":[{"ID":"r","Status":"Enabled","Expiration":{"Days":9}}]}
"""
# The words of jobs over the vault `v`, one of an earlier edition, and a file that isn't there.
WORDS_OF = {
    "init": ["new"],
    "dept": ["v", "maps", *REGISTRAR],
    "caller": ["v", "bob", "get", "--dept", "records", *REGISTRAR],
    "bucket": ["v", "more", "records", *REGISTRAR],
    "move": ["v", "docs", "court", *REGISTRAR],
    "intake": ["v", "docs", "batch", "list.csv", ".", *ANN],
    "run": ["v", "docs", *ANN],
    "report": ["v", "records", *ANN],
    "certificate": ["v", "docs", "1", *ANN],
    "register": ["v"],
    "verify": ["v"],
    "events": ["v"],
    "seal": ["v"],
    "lawful": ["v"],
    "migrate": ["early", "new"],
}
# The jobs whose allocations are refused from the first one on; those of other jobs once the vault is open.
WHOLE = ("init", "verify", "migrate")
# The jobs that make a vault in a file.
MAKING = ("init", "migrate")
# The distance between two allocations that are refused, of these jobs and of the others; and after how many untroubled runs
# in a row a search ends.
STEPS = (1, 1) if IS_LONG else (97, 5)
UNTROUBLED = 20
# Fewer allocations than an opening makes.
EARLIEST = 1_000
EARLIER = EXAMPLES / "earlier" / "schema2" / "rows.sql"
Tables = dict[str, list[str]]


class Ended(NamedTuple):
    """What a job came to: what the vaults hold then, and once the words of an intake that was stopped were given again."""

    ran: Ran
    left: Tables
    again: Tables


def tables_in(folder: pathlib.Path) -> Tables:
    """What the vaults of a folder hold. A file without a table holds what a missing one does."""
    found: Tables = {}
    for name in ("v", "new"):
        with contextlib.closing(sqlite3.connect(folder / name)) as base:
            found[name] = list(base.iterdump())
    return found


def judge_intake(before: Tables, whole: Ended, here: Ended) -> str:
    """How an intake ended that out of memory stopped: after how many of its rows. Given again it takes in the others."""
    *done, stopped = here.ran.out.splitlines()
    check(stopped == "stopped Memory" and done == whole.ran.out.splitlines()[:len(done)], "its rows")
    check("intake: memory ran out; given again, the same intake goes on" in here.ran.err, "its words")
    check((here.left == before) == (not done) and here.left != whole.left, "what it left")
    check(here.again == whole.left, "what it came to when it was given again")
    return f"stopped after {len(done)} rows"


def judge_job(name: str, before: Tables, whole: Ended, here: Ended) -> str:
    """How a job ended of which an allocation was refused; `none` where nothing differs from the untroubled run."""
    if here == whole:
        return "none"
    ran, left = here.ran, here.left
    said = next((it for it in ran.err.splitlines() if not it.startswith("row ")), "")
    check(ran.status == 1, "its status")
    if name == "intake" and "stopped Memory" in ran.out:
        return judge_intake(before, whole, here)
    if ran.out == f"{MEMORY}\n":
        check(left == before, "it was refused, and changed something")
        return "refused"
    if not said and (ran.out, left) == (whole.ran.out, whole.left):
        return "nothing said of a row"
    if STOPPED.fullmatch(ran.out.strip()):
        return "stopped"
    check(said in (NO_WORDS, "open: Memory", f"{name}: Memory"), "what is said of it")
    check(whole.ran.out.startswith(ran.out) and left in (before, whole.left), "what was done of it")
    return said


@needs(os.environ.get("CC", "cc"))
class Jobs(Case):
    def setUp(self) -> None:
        super().setUp()
        self.loaded, self.made = Loaded(PROGRAM, self.folder), self.folder / "made"
        self.made.mkdir()
        make_office(self.made / "v", "put", "config", "delete-version", "run", "report", at=["--at", "2024-01-15T09:00:00Z"])
        printed("dept", self.made / "v", "court", "--as", "registrar", "--at", "2024-01-15T09:00:00Z")
        printed("replay", self.made / "v", given=MADE)
        (self.made / "list.csv").write_text("file,key,mode,until,hold\nlist.csv,c,,,\nnone.csv,d,,,\nlist.csv,e,,,\n")
        with contextlib.closing(sqlite3.connect(self.made / "early")) as base:
            base.executescript(EARLIER.read_text())

    def carried_out(self, name: str, number: int) -> Ended:
        """What a job comes to with that allocation refused."""
        place = self.folder / f"{name}-{number}"
        shutil.copytree(self.made, place)
        with self.loaded.refusing(number) as words:
            ran = ran_words(*words, name, *WORDS_OF[name], cwd=place, env={}, timeout=LIMIT)
        left = tables_in(place)
        if name in MAKING and ran.status == 1 and not any("CREATE TABLE" in it for it in left["new"]):
            again = ran_words(PROGRAM, name, *WORDS_OF[name], cwd=place, timeout=LIMIT)
            check(again.status == 0, f"{name} after the refusal of allocation {number}: {again}")
        if "stopped Memory" in ran.out:
            ran_words(PROGRAM, name, *WORDS_OF[name], cwd=place, timeout=LIMIT)
        found = Ended(ran, left, tables_in(place) if "stopped Memory" in ran.out else left)
        shutil.rmtree(place)
        return found

    def first(self, name: str) -> int:
        """The first allocation of a job after its vault is open."""
        return first_number(lambda it: not self.carried_out(name, it).ran.err.startswith("open: Memory"), EARLIEST)

    def look_at(self, name: str, numbers: range) -> collections.Counter[str]:
        """Judges a run for each of these allocations, up to the last one of the job; how often each ending came."""
        before, whole = tables_in(self.made), self.carried_out(name, NEVER)
        # Of the intake a row is refused.
        check(whole.ran.status == (name == "intake"), f"{name}: {whole.ran}")

        def judged(number: int) -> str:
            here = self.carried_out(name, number)
            try:
                return judge_job(name, before, whole, here)
            except AssertionError as wrong:
                raise AssertionError(f"{name}, allocation {number}: {wrong}: {here.ran}") from None

        runs = each_in_turn(JOBS, judged, numbers, UNTROUBLED, lambda way: way == "none")
        return collections.Counter(way for _, way in runs)

    def test_jobs(self) -> None:
        for name in WORDS_OF:
            is_whole = name in WHOLE
            numbers = range(1 if is_whole else self.first(name), sys.maxsize, STEPS[not is_whole])
            ways = self.look_at(name, numbers)
            check(len(ways) > 1, f"no allocation of {name} was refused")
            print(f"allocations of {name}:", dict(ways))
