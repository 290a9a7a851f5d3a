"""The words of the office's desk by their parts, as its own parser (argparse) has them."""

import argparse
import collections
import os
import re
import sys

import help_texts

sys.path.insert(0, str(help_texts.TOP / "desk"))
sys.dont_write_bytecode = True
from vaultdesk import cli  # noqa: E402

# A subcommand, or a kind of one: its words, what it does, its usage, its arguments and options, what its help says beside
# that, its examples, and its kinds.
Command = collections.namedtuple("Command", "words about usage arguments options description examples kinds")
# An argument or option: its names (of an option), what stands for a value (None: nothing does), its text, and its choices.
Word = collections.namedtuple("Word", "names value text choices is_needed is_repeated")


def word_of(action):
    """An argument or option of argparse."""
    takes_value = action.nargs != 0
    value = action.metavar or (action.dest.upper() if action.option_strings else action.dest)
    text = (action.help or "").replace("%%", "%")
    is_repeated = action.nargs in ("*", "+", argparse.REMAINDER)
    is_needed = action.required and action.nargs not in ("?", "*")
    names = action.option_strings
    return Word(names, value if takes_value else None, text, [*map(str, action.choices or [])], is_needed, is_repeated)


def usage_of(parser):
    """The lines of the usage, of whatever width the terminal is."""
    os.environ["COLUMNS"] = "78"
    lines = parser.format_usage().removeprefix("usage: ").rstrip().split("\n")
    return [lines[0], *("    " + it.strip() for it in lines[1:])]


def command_of(words, about, parser):
    """A subcommand, with its kinds."""
    arguments, options, kinds = [], [], []
    for action in parser._actions:
        if isinstance(action, argparse._SubParsersAction):
            texts = {it.dest: it.help for it in action._choices_actions}
            kinds += [command_of([*words, name], texts[name], it) for name, it in action.choices.items()]
        elif not action.option_strings:
            arguments.append(word_of(action))
        elif "--help" not in action.option_strings:
            options.append(word_of(action))
    examples = re.split("; (?=vaultdesk )", re.sub("^Examples?: ", "", parser.epilog or "")) if parser.epilog else []
    description = " ".join((parser.description or "").split())
    return Command(words, about, usage_of(parser), arguments, options, description, examples, kinds)


def desk():
    """The desk itself; its kinds are its subcommands, in the order of its own list."""
    parser = cli.words()
    return command_of(["vaultdesk"], "the office's desk over a records vault", parser)
