"""Whether the vault is sound, and what holds against whoever may write to its file: verify, lawful, seal, check-seals,
compare.

The answers of the last three are vault-recheck's, which shares no code with the program that writes the vault; but
with `--parts` a seal is of what the server answers.
"""

from __future__ import annotations

import argparse
import fcntl
import os
import subprocess
from collections.abc import Iterable, Sequence
from pathlib import Path
from typing import Any

from vaultdesk import beside, disk, moments, parts, recheck
from vaultdesk.engine import Engine
from vaultdesk.errors import DeskError, EngineError, UsageError, of_file
from vaultdesk.output import print_json, say, say_while_long

Seal = recheck.events.Seal
Sealed = recheck.events.Sealed
PARTS = "ask the server that has the vault, part by part, and read no file: as a caller with the right admin"


def seals_beside(file: Path) -> Path:
    """Where the seals of a vault are kept if nothing else is said: `records.seals` beside `records.vault`."""
    return file.with_suffix(".seals") if file.suffix == ".vault" else file.with_name(f"{file.name}.seals")


def read_seals(path: Path) -> Sealed:
    """What a file of seals has. `DeskError` where it can't be read, or has something else."""
    try:
        return recheck.events.read_seals(path.read_text(encoding="utf-8"))
    except OSError as error:
        raise of_file(path, error) from error
    except ValueError as error:
        raise DeskError(f"{path}: {error}") from error


def given_seals(path: Path) -> Sealed:
    """The same of a file that somebody gave to have its seals checked: `DeskError` also where it has no whole one."""
    found = read_seals(path)
    if not found.seals:
        raise DeskError("; ".join([f"{path}: there is no seal", *found.torn]))
    return found


def seal_json(seal: Seal) -> dict[str, Any]:
    """A seal as JSON has it."""
    return {**seal._asdict(), "before": recheck.vault.moment_text(seal.before)}


def counted(number: int, what: str) -> str:
    """A number with what it counts: `1 seal`, `12 seals`."""
    return f"{number} {what}{'' if number == 1 else 's'}"


def _seconds_of(moment: str) -> int:
    try:
        return recheck.vault.moment_of(moment)
    except ValueError as error:
        raise UsageError(str(error)) from error


def seal_of(file: Path, before: str | None) -> Seal:
    """The seal of a moment, or of the vault's last one. `DeskError` where it is later than that."""
    say_while_long(f"{recheck.WHO}, audits the file first")
    with recheck.audited(file) as base:
        moment = _seconds_of(before) if before else recheck.vault.meta_of(base).last
        try:
            [found] = recheck.events.seals_of(base, [moment])
        except recheck.events.TooLate as late:
            raise DeskError(f"{late}: later changes could still come before it; ask for an earlier one") from late
    return found


def append(path: Path, seal: Seal) -> bool:
    """Appends a seal to those of a file, in one piece and on the disk; false where it is there already.

    What was cut as it was written is said. `DeskError` where the file has another seal of that moment, or can't be
    written."""
    try:
        is_new = not path.exists()
        with open(os.open(path, os.O_RDWR | os.O_CREAT | os.O_APPEND, 0o600), "ab+", buffering=0) as file:
            fcntl.flock(file, fcntl.LOCK_EX)
            found = read_seals(path)
            for it in found.torn:
                say(f"{path}: {it}")
            there = [it for it in found.seals if it.before == seal.before]
            if any(it != seal for it in there):
                why = "has another seal of that moment: the vault isn't what was sealed; see check-seals"
                raise DeskError(f"{path} {why}")
            if not there:
                disk.append(file, seal.text().encode())
            if is_new:
                disk.sync(path.absolute().parent)
            return not there
    except OSError as error:
        raise DeskError(f"{path}: {error.strerror}") from error


def seal(engine: Engine, words: argparse.Namespace) -> None:
    """Prints the seal of a moment, and appends it to a file where that is asked."""
    before = moments.read(words.before) if words.before else None
    found = parts.seal(engine, before) if words.parts else seal_of(engine.tables, before)
    who = "what the server answered, part by part" if words.parts else recheck.WHO
    if words.json:
        print_json({**seal_json(found), "by": who})
    else:
        print(found.text(), end="")
    if words.append is not None:
        path = Path(words.append) if words.append else seals_beside(engine.desk.file)
        done = "is appended to" if append(path, found) else "stood already in"
        say(f"the seal {done} {path}: keep a copy of that file where the office can't write")
    if not words.json:
        say(f"sealed by {who}")


def differing(file: Path, seals: Sequence[Seal]) -> list[str]:
    """What of these seals doesn't come out of the file, a line each; one pass for all of them."""
    say_while_long(f"{recheck.WHO}, audits the file first")
    with recheck.audited(file) as base:
        return list(recheck.events.differing_seals(base, list(seals)))


def span_text(seals: Iterable[Seal]) -> str:
    """The first and the last moment of some seals."""
    texts = sorted(recheck.vault.moment_text(it.before) for it in seals)
    return texts[0] if len(texts) == 1 else f"from {texts[0]} to {texts[-1]}"


def check_seals(engine: Engine, words: argparse.Namespace) -> None:
    """Says whether each seal of the files comes out of the vault again."""
    files = {path: given_seals(Path(path)) for path in words.files or [str(seals_beside(engine.desk.file))]}
    seals = [it for found in files.values() for it in found.seals]
    torn = [f"{path}: {it}" for path, found in files.items() for it in found.torn]
    found = differing(engine.tables, seals)
    if words.json:
        print_json({"seals": len(seals), "differing": found, "torn": torn, "by": recheck.WHO})
    else:
        for it in torn:
            print(f"torn {it}")
        for it in found:
            print(f"differs {it}")
        if not found:
            print(f"as sealed: {counted(len(seals), 'seal')}, {span_text(seals)}")
        print(f"checked by {recheck.WHO}")
    if found:
        raise DeskError(f"{len(found)} of {counted(len(seals), 'seal')} differ: what was before isn't what was sealed")


def compare(engine: Engine, words: argparse.Namespace) -> None:
    """Says whether what the older copy had is unaltered in the newer one."""
    say_while_long(f"{recheck.WHO}, audits both files first")
    with recheck.audited(Path(words.old)) as old, recheck.audited(Path(words.new)) as new:
        found = list(recheck.compare.differences(old, new))
    if words.json:
        print_json({"unaltered": not found, "differences": found, "by": recheck.WHO})
    else:
        for it in found:
            print(it)
        if not found:
            print(f"unaltered: all that {words.old} has is in {words.new}, and nothing new is dated before its end")
        print(f"compared by {recheck.WHO}")
    if found:
        raise DeskError(f"{counted(len(found), 'difference')}: {words.new} isn't {words.old} with what came since")


def verify(engine: Engine, words: argparse.Namespace) -> None:
    """Says whether the engine's audit finds the vault sound: of a copy as it is now, while a server has it."""
    tables = engine.tables
    done = subprocess.run([engine.desk.program, "verify", str(tables)], capture_output=True, check=False)
    verdict = done.stdout.decode("utf-8", "replace").strip() or done.stderr.decode("utf-8", "replace").strip()
    is_sound = done.returncode == 0 and verdict == "sound"
    is_copy = tables != engine.desk.file
    if words.json:
        print_json({"sound": is_sound, "verdict": verdict, "of_a_copy": is_copy})
    elif is_sound:
        print("sound, by a copy of the vault as it is now" if is_copy else "sound")
    if not is_sound:
        raise DeskError(f"{engine.desk.file}: {verdict}: {beside.page('formats/PROGRAM')} says what each verdict means")


def _judged(engine: Engine) -> str:
    """What the engine says of whether the rules were kept: of a copy as it is now, while a server has the vault."""
    done = subprocess.run([engine.desk.program, "lawful", str(engine.tables)], capture_output=True, check=False)
    verdict = done.stdout.decode("utf-8", "replace").strip()
    if done.returncode != 0 and not verdict.startswith("unlawful"):
        raise EngineError(done.stderr.decode(errors="replace").strip())
    return verdict


def lawful(engine: Engine, words: argparse.Namespace) -> None:
    """Says whether each setting and each removal keeps the rules, as the engine judges them."""
    if words.parts:
        found = parts.breach(engine)
        verdict = f"unlawful {found['version_id']} {found['law']}" if found else "lawful"
    else:
        verdict = _judged(engine)
    if words.json:
        print_json({"lawful": verdict == "lawful", "verdict": verdict, "in_parts": words.parts})
    elif verdict == "lawful":
        more = "; that the records of one move agree, within each part alone" if words.parts else ""
        print(f"lawful{more}")
    if verdict != "lawful":
        raise DeskError(f"{engine.desk.file}: {verdict}: {beside.page('formats/PROGRAM')} says what each rule is")


def add(commands: argparse._SubParsersAction[argparse.ArgumentParser], common: argparse.ArgumentParser) -> None:
    """Adds the subcommands to the desk's words."""
    what = "audit the vault: each table, and each byte of content; also while a server has it"
    it = commands.add_parser("verify", parents=[common], help=what, epilog="Example: vaultdesk verify --vault records")
    it.add_argument("vault", nargs="?", metavar="VAULT", default=argparse.SUPPRESS, help="the same as --vault VAULT")
    it.set_defaults(run=verify)

    what = "whether commands can have made this history: each setting and each removal keeps the rules"
    example = "Example: vaultdesk lawful --vault records"
    it = commands.add_parser("lawful", parents=[common], help=what, epilog=example)
    it.add_argument("vault", nargs="?", metavar="VAULT", default=argparse.SUPPRESS, help="the same as --vault VAULT")
    it.add_argument("--parts", action="store_true", help=PARTS)
    it.set_defaults(run=lawful)

    what = "the seal of all that happened before a moment: four lines to be deposited with somebody else"
    example = "Example: vaultdesk seal --vault records.vault --append"
    it = commands.add_parser("seal", parents=[common], help=what, epilog=example)
    it.add_argument("--before", metavar="DATE", help="the moment (default: that of the vault's last change)")
    more = "append it to the seals of FILE (default: NAME.seals beside NAME.vault)"
    it.add_argument("--append", nargs="?", const="", metavar="FILE", help=more)
    it.add_argument("--parts", action="store_true", help=PARTS)
    it.set_defaults(run=seal)

    what = "whether seals come out of the vault again, a whole year of them in one pass"
    example = "Example: vaultdesk check-seals deposited/records.seals"
    it = commands.add_parser("check-seals", parents=[common], help=what, epilog=example)
    it.add_argument("files", nargs="*", metavar="FILE", help="files of seals (default: NAME.seals beside NAME.vault)")
    it.set_defaults(run=check_seals)

    what = "whether what an older copy has is unaltered in a newer one, and nothing new is dated before its end"
    example = "Example: vaultdesk compare backup/records-20250101.vault records.vault"
    it = commands.add_parser("compare", parents=[common], help=what, epilog=example)
    it.add_argument("old", metavar="OLD", help="the file of the older copy")
    it.add_argument("new", metavar="NEW", help="the file of the newer one")
    it.set_defaults(run=compare)
