"""Refusals: what standard error says of each, as `examples/refusals.txt` has it.

The other examples show those words that a script, a file or a list leads to. Some refusals no trial can lead to, as a
quota of a terabyte or the end of all numbers. So the table in the sources is compared here, name by name.
"""

import re

from trials.parts.program import EXAMPLES, TOP, Case

WORDS = TOP / "crates" / "vaultctl_remedies" / "src" / "remedies.rt"
OF_LINES = WORDS.with_name("line_remedies.rt")
TEXT = r'=>\s+"((?:[^"\\]|\\.)*)"'
ARM = re.compile(r"(?m)^ +\(?Refusal::(\w+)(?:\((\w+)\))?(?:, Command::(\w+)\(_\)\))? " + TEXT)
REASON = re.compile(r"Reason::(\w+)(?:\(_\))? " + TEXT)
STOP = re.compile(r"Stop::(\w+) " + TEXT)
LINE = re.compile(r"(?m)^ +\(?((?:Refusal|Command)::[^\n\"]*) " + TEXT)
CONST = re.compile(r'const (\w+): &str = "((?:[^"\\]|\\.)*)"')


def words_of(source: str) -> dict[str, str]:
    """The words of each refusal: by its name, by the command that it is of where another has other words, or by the
    reason of a denied access; and those of each stop."""
    found: dict[str, str] = {}
    for name, value, command, words in ARM.findall(source):
        key = f"{name} of {command}" if command else name
        found[f"{key} below a marker" if value == "true" else key] = words
    found |= {f"AccessDenied {reason}": words for reason, words in REASON.findall(source)}
    return found | {f"stopped by {stop}": words for stop, words in STOP.findall(source)}


def words_of_lines(source: str) -> dict[str, str]:
    """The words for a line of a script where it has others: by the refusal, by the commands whose value isn't allowed, or by
    the member that several of these name."""
    found = {"line " + ", ".join(re.findall(r"::(\w+)", arm)): words for arm, words in LINE.findall(source)}
    return found | {f"line {name.lower()}": words for name, words in CONST.findall(source)}


class Refusals(Case):
    def test_words(self) -> None:
        wanted = dict(it.split(": ", 1) for it in (EXAMPLES / "refusals.txt").read_text().splitlines())
        sources = words_of(WORDS.read_text()) | words_of_lines(OF_LINES.read_text())
        self.assertEqual(wanted, {name: words.replace('\\"', '"') for name, words in sources.items()})
