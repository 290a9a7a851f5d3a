"""Bodies that answer at once, in the place of the functions' own: the sources with all of them, each under a number."""

import pathlib
import re

from numbered_bodies import CHOSEN, Body, Function, each_function

# The faults that a function may answer, by the name of their type in its signature.
FAULTS = {
    "AllocError": ["AllocError"],
    "Error": ["Error::QueryReturnedNoRows", "Error::from(std::io::ErrorKind::TimedOut)"],
    "io::Error": ["io::Error::from(std::io::ErrorKind::TimedOut)"],
    "OpenError": ["OpenError::Refused(Refusal::Memory)", "OpenError::InUse"],
    "Fault": ["Fault::Memory"],
    "Halt": ["Halt::Fault(vault_core_model::halt::Fault::Memory)"],
    "LineFault": ["LineFault::Memory"],
    "Misread": ["Misread::Memory"],
    "JobFault": ["JobFault::Memory"],
    "Refusal": ["Refusal::Memory"],
    "ServeFault": ["ServeFault::Memory"],
    "ExportFault": ["ExportFault::Memory"],
    "ReplayFault": ["ReplayFault::Memory"],
    "ReadFault": ["ReadFault::Memory"],
    "WordsFault": ["WordsFault::Memory"],
    "PortFault": ["PortFault::Device"],
}
# What is answered of these types. Of a function that answers nothing, nothing is done.
PLAIN = {"u8": [["0"], ["1"]], "": [[""]], "fmt::Result": [["Err(fmt::Error)"]]}
TIMED_OUT = "Err(std::io::Error::from(std::io::ErrorKind::TimedOut))"


def parts_of(written: str) -> list[str]:
    """What stands between the angle brackets of a type, at the commas that are in no others."""
    parts, depth = [""], 0
    for it in written[written.index("<") + 1 : written.rindex(">")]:
        depth += {"<": 1, "(": 1, ">": -1, ")": -1}.get(it, 0)
        if it == "," and depth == 0:
            parts.append("")
        else:
            parts[-1] += it
    return [it.strip() for it in parts]


def answers_of(answer: str, lines: list[str]) -> list[list[str]]:
    """What bodies may answer at once, where the answer has that type, in a file of these lines; of each list the first
    that compiles counts."""
    if answer in PLAIN:
        return PLAIN[answer]
    if answer.startswith("Option<"):
        return [["None"]]
    if not re.match(r"(io::)?Result<", answer):
        return []
    parts = parts_of(answer)
    if len(parts) == 1:
        return [[TIMED_OUT]]
    if parts[1] == "Error" and any("use sqlite::" in it for it in lines):
        return [["Err(Error::QueryReturnedNoRows)"]]
    return [[f"Err({it})" for it in FAULTS[parts[1]]]] if parts[1] in FAULTS else []


def is_exempt(function: Function) -> bool:
    """Whether a function can't just return: a law has nothing to do, and a `drop` has to take its value apart."""
    return not function.answer and (function.name == "drop" or not re.search(r"&mut|\bself\b", function.head))


def put_answers(folder: pathlib.Path, crates: set[str], left_out: set[str]) -> list[Body]:
    """Writes the bodies into a copy of the crates; returns them, by number from 1."""
    bodies: list[Body] = []
    for crate, where, it, lines in each_function(folder, crates):
        # A vault in a file can't be dropped, only closed.
        first = "close_vault(vault); " if "vault: FileVault" in it.head else ""
        for choices in [] if is_exempt(it) else answers_of(it.answer, lines):
            # The function's own body is no other.
            if lines[it.line + 1].strip() in choices and lines[it.line + 2].strip() == "}":
                continue
            keys = {f"{where}:{it.line}:{choice}": choice for choice in choices}
            key = next((key for key in keys if key not in left_out), None)
            if key is None:
                continue
            number, line = len(bodies) + 1, lines[it.line]
            what, answer = f"answers {keys[key] or 'nothing'}", f"{first}{f'return {keys[key]}'.strip()};"
            bodies.append(Body(number, crate, where, it.line + 1, it.name, what, f"{line} {answer}", key))
            # On the line of the brace, so that lines stay where they were.
            lines[it.line] += f" if {CHOSEN}::chosen({number}) == 1 {{ {answer} }}"
    return bodies
