"""What the engine's refusals mean at the desk, and what to do, as data.

In the words, `{member}` stands for a member of the line that was refused, `{at}` for its moment, and `{option}` with
`{value}` for the word at the desk that gave a value.
"""

from __future__ import annotations

import re
from collections.abc import Mapping

NAMED = "1 to 64 of a-z, 0-9, '-', '_' and '.'"
NAME = re.compile(r"[a-z0-9_.-]{1,64}")

# By the reason of an AccessDenied.
DENIALS = {
    "unknown-caller": "no open caller has the name {as!r}, which --as or $VAULT_CALLER gives: vaultdesk callers lists"
    " them",
    "department": "the bucket or the report is another department's, and callers have only their own: let a caller of"
    " that department ask",
    "legal-hold": "a legal hold is on: lift it first (vaultdesk release), by a caller with the right hold",
    "retention-compliance": "a retention in COMPLIANCE is in force: nobody removes it or shortens it before its end",
    "retention-governance": "a retention in GOVERNANCE is in force: wait for its end, or let a caller with the right"
    " bypass give --bypass",
}
RIGHT = "the caller lacks the right {right}, and rights never change: let a caller ask who has it (vaultdesk callers)"

# By the code, where nothing below is more exact.
WORDS = {
    "ClockBack": "the vault's last change has a later moment than this machine's clock: look at the clock",
    "ClockOutOfRange": "this machine's clock shows no moment that a vault can keep: look at the clock",
    "NoSuchBucket": "the vault has no bucket {bucket!r}: check its spelling; vaultdesk buckets lists them",
    "NoSuchKey": "nothing is held under that key: check every letter of it; vaultdesk ls lists those of a bucket",
    "NoSuchVersion": "the bucket holds no version of that number under that key: check all three; vaultdesk ls lists"
    " those that are held, and vaultdesk find those that were removed",
    "MethodNotAllowed": "that is a delete marker, which has no content and no lock: give --version N of a version"
    " below it; vaultdesk ls lists them",
    "BucketAlreadyExists": "the vault has a bucket of that name already: nothing was changed; take another name, or use"
    " that bucket",
    "NameTaken": "the name is taken already, perhaps by one that was closed: nothing was changed; take another name",
    "InvalidBucketName": "a bucket's name has 3 to 63 of a-z, 0-9 and '-', with no '-' at an end, as case-files",
    "InvalidArgument": "a value isn't allowed: --help of the subcommand says what each may be",
    "KeyTooLongError": "a key, or the beginning of one, has at most 1,024 bytes of UTF-8: shorten it",
    "EntityTooLarge": "a version has at most 1,048,576 bytes: cut it into parts",
    "MalformedBody": "the engine doesn't know such a line: desk and engine are of different versions: install both of"
    " one package",
    "NoSuchLifecycleConfiguration": "the bucket has no rules: vaultdesk rules add makes one",
    "QuotaExceeded": "the department would have admitted and received more than 1,000,000,000,000 bytes in all, those"
    " of removed versions included: nothing was admitted; add another department, with a bucket of its own",
    "VaultFull": "the vault has no number left for another entry, setting or move: begin another vault",
    "RetentionOutOfRange": "the retention would end after the year 9999: give an earlier end",
    "IntakeConflict": "that line of the batch was taken in before, with other content, key or lock: give the file a row"
    " of its own at the list's end",
    "Memory": "the machine refused memory: nothing was changed; end other programs, and give the command again",
    "Device": "the vault's file failed: look at the disk, then at the vault by vaultdesk verify, and whether the change"
    " was made",
}
BELOW_MARKER = "a delete marker is on top of that key: give --version N for a version below it; vaultdesk ls lists them"
# By the code, where the moment was given by --at.
AT = {
    "ClockBack": "--at {at} is before the vault's last change, and nothing is dated before what was done: give a later"
    " moment, or leave --at out",
    "ClockOutOfRange": "--at {at} lies outside 1970 to 9999: correct it",
}

NO_DEPARTMENT = (
    "--department {dept!r} names no department of this vault: vaultdesk departments lists them, and adds one by --add"
)
NOT_AFTER = "{until} isn't after the moment of the command, {at}: give a later end"
# By the command and the code.
COMMANDS = {
    ("add-dept", "NameTaken"): "the vault has a department of that name already: nothing was changed; use it, or take"
    " another name",
    ("add-caller", "NameTaken"): "a caller of that name is there, or was closed: nothing was changed; name, department"
    " and rights of a caller never change: add one of another name",
    ("add-caller", "InvalidArgument"): NO_DEPARTMENT,
    ("add-bucket", "InvalidArgument"): NO_DEPARTMENT,
    ("report", "InvalidArgument"): "the vault has no department {dept!r}: vaultdesk departments lists them",
    ("move-bucket", "InvalidArgument"): "--department {dept!r} names no department of this vault, or the one that has"
    " the bucket already: vaultdesk departments lists them, and vaultdesk buckets says which has the bucket",
    ("move-bucket", "QuotaExceeded"): "the department that gets the bucket would have admitted and received more than"
    " 1,000,000,000,000 bytes in all, those of removed versions included: nothing moved; add another department",
    ("close-caller", "InvalidArgument"): "--close {caller!r} names no open caller of this vault: vaultdesk callers"
    " lists them; who was closed stays closed",
    ("set-default", "InvalidArgument"): "a default has 1 to 36,500 days or 1 to 100 years: correct --days or --years",
    ("set-rules", "InvalidArgument"): "--above has to be below --below, and a bucket has at most 1,000 rules",
    ("put", "InvalidArgument"): f"--until {NOT_AFTER}",
    ("set-retention", "InvalidArgument"): f"--until {NOT_AFTER}",
    ("intake", "InvalidArgument"): f"the end {NOT_AFTER}",
    ("certificate", "MethodNotAllowed"): "that version is held still, or is a delete marker: a certificate is of a"
    " removed version",
}

PREFIX = re.compile(r"[^\x00-\x1f\x7f-\x9f]*")
CONTROL = "has neither a line's end nor another control character"
# By the member: the form of its value, a pattern or the numbers that it may be, and the words on one of another form.
FORMS: Mapping[str, tuple[re.Pattern[str] | range, str]] = {
    "caller": (NAME, f"a caller's name has {NAMED}, as ann.b"),
    "dept": (NAME, f"a department's name has {NAMED}, as land-records"),
    "batch": (NAME, f"a batch's name has {NAMED}, as 2025-06"),
    "bucket": (re.compile(r"(?!-)[a-z0-9-]{3,63}(?<!-)"), WORDS["InvalidBucketName"]),
    "key": (re.compile(r"[^\x00-\x1f\x7f-\x9f]+"), f"a key isn't empty, and {CONTROL}"),
    "prefix": (PREFIX, f"a key {CONTROL}"),
    "id": (range(1, 1_000_000_001), "a version's number is from 1 to 1,000,000,000, as vaultdesk ls has it"),
    "ID": (re.compile(r"[^\x00-\x1f\x7f-\x9f]{1,255}"), "a rule's name has 1 to 255 characters, as old"),
    "Prefix": (PREFIX, f"a key {CONTROL}"),
    "Days": (range(1, 2_147_483_648), "a rule has 1 to 2,147,483,647 days"),
    "NoncurrentDays": (range(1, 2_147_483_648), "a rule has 1 to 2,147,483,647 days"),
    "NewerNoncurrentVersions": (range(1, 101), "a rule keeps the newest 1 to 100 of the older versions"),
    "ObjectSizeGreaterThan": (range(1_048_577), "a size has 0 to 1,048,576 bytes here"),
    "ObjectSizeLessThan": (range(1, 1_048_578), "a size has 1 to 1,048,577 bytes here"),
}  # fmt: skip
# How the desk calls a member, of a command and of all others.
OPTIONS_OF = {
    ("add-dept", "dept"): "--add",
    ("add-caller", "caller"): "--add",
    ("close-caller", "caller"): "--close",
    ("add-bucket", "bucket"): "--add",
    ("move-bucket", "bucket"): "--move",
    ("intake", "bucket"): "--bucket",
    ("report", "dept"): "DEPARTMENT",
}
OPTIONS = {
    "as": "--as", "at": "--at", "until": "--until", "mode": "--mode", "hold": "--hold", "bypass": "--bypass",
    "dept": "--department", "batch": "--batch", "bucket": "BUCKET", "key": "KEY", "prefix": "PREFIX",
    "id": "--version", "days": "--days", "years": "--years", "rights": "--rights", "caller": "the caller",
    "ID": "--id", "Prefix": "--prefix", "Days": "--days", "NoncurrentDays": "--noncurrent-days",
    "NewerNoncurrentVersions": "--keep", "ObjectSizeGreaterThan": "--above", "ObjectSizeLessThan": "--below",
}  # fmt: skip
