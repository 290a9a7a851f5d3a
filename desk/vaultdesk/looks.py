"""What is found of each row of a delivery before anything is taken in."""

from __future__ import annotations

import hashlib
import re
import unicodedata
from collections import Counter
from collections.abc import Sequence

from vaultdesk import keys, moments
from vaultdesk.documents import MOST, TOO_LARGE
from vaultdesk.folder import Folder, is_of_system
from vaultdesk.items import MODES, Item
from vaultdesk.limits import LONGEST_KEY, Limits, why_outside
from vaultdesk.there import There

HOLDS = ("", "ON", "OFF")


def _is_unicode(text: str) -> bool:
    """Whether a text has no bytes of a file's name that aren't UTF-8."""
    return not any("\udc80" <= it <= "\udcff" for it in text)


def look_at_words(it: Item, now: str, form: re.Pattern[str] | None) -> None:
    """What is wrong with the key, which has to be of that form, and the lock of an item by themselves."""
    if not _is_unicode(it.key):
        it.wrong.append("the file's name isn't UTF-8, which a key is: rename the file, or give an inventory with keys")
    elif not it.key or len(it.key.encode()) > LONGEST_KEY or any(ord(c) < 32 or ord(c) == 127 for c in it.key):
        it.wrong.append("a key has 1 to 1,024 bytes, none of them a control character")
    elif why := keys.why_not(it.key, form):
        it.wrong.append(why)
    if it.key != it.key.strip():
        it.notes.append("the key begins or ends with a blank, which is kept")
    if it.key != unicodedata.normalize("NFC", it.key):
        it.notes.append("the key isn't in the composed form (NFC), and is kept so: who types it finds another one")
    if it.mode not in MODES or it.hold not in HOLDS:
        it.wrong.append("mode is GOVERNANCE or COMPLIANCE, in capitals, hold is ON or OFF")
    if it.until and it.until <= now:
        it.wrong.append(f"the retention ended already: {it.until}")
    it.is_far = bool(it.until) and moments.is_far(it.until, now)
    if it.is_far:
        it.notes.append(f"the retention ends in more than {moments.FAR} years: {it.until}")


def look_at_limits(it: Item, given: Limits, bucket: str, now: str) -> None:
    """What is wrong with the end of an item's retention by the limits of the settings."""
    why = why_outside(given, bucket, it.until, now) if it.until else ""
    if why:
        it.wrong.append(why)


def look_at_default(it: Item, there: There) -> None:
    """What an item without an end of its own gets from the bucket, or what is wrong with that; and where its own mode
    isn't the one that the bucket has for others."""
    default = there.default
    if it.until:
        if default.mode not in ("", it.mode):
            it.notes.append(f"its mode is {it.mode}, and the bucket's default is {default.mode}")
    elif default.why_not:
        it.wrong.append(default.why_not)
    else:
        it.is_by_default = bool(default.mode) and not it.wrong


def look_at_file(it: Item, folder: Folder) -> None:
    """What is wrong with an item's file; its digest where nothing is."""
    if it.file.startswith("/") or not {"", ".", ".."}.isdisjoint(it.file.split("/")):
        it.wrong.append("a file's name is that of a file of the folder itself, or its path from there")
        return
    name = folder.name_of(it.file)
    if name is None:
        it.wrong.append(folder.why_not_there(it.file))
        return
    if name != it.file:
        it.notes.append("the file's name is written in another Unicode form in the folder")
        it.file = name
    path = folder.path / it.file
    if path.is_symlink() or not path.is_file():
        it.wrong.append("it is no file: a link, a folder or a device isn't taken in")
        return
    try:
        with path.open("rb") as file:
            content = file.read(MOST + 1)
    except OSError as error:
        it.wrong.append(f"it can't be read: {error.strerror}")
        return
    if len(content) > MOST:
        it.wrong.append(f"it has more than {MOST:,} bytes: {TOO_LARGE}")
        return
    it.size, it.digest = len(content), hashlib.sha256(content).hexdigest()
    if it.wanted not in ("", it.digest):
        it.wrong.append("its content isn't the one whose digest the inventory has")
    if not content:
        it.notes.append("the file is empty: it has 0 bytes")
    if is_of_system(it.file):
        it.notes.append("the file's name is that of a file of the system")


def look_at_doubles(items: Sequence[Item], there: There) -> None:
    """What comes twice: within the delivery, or in the vault already."""
    keys = Counter(it.key for it in items)
    digests = Counter(it.digest for it in items if it.digest)
    earlier = set[str]()
    for it in items:
        it.is_taken = it.line in there.lines
        it.is_second = bool(it.digest) and it.digest in earlier
        earlier.add(it.digest)
        if keys[it.key] > 1:
            it.notes.append("the key comes more than once in this delivery")
        if it.digest and digests[it.digest] > 1:
            it.notes.append("the same content comes more than once in this delivery")
        if it.digest and it.digest in there.digests:
            it.is_doubled = True
            it.notes.append("the vault holds the same content already")


def look_at_keys(it: Item, there: There) -> None:
    """Whether an item becomes one more version of a document that the bucket holds, and with the same content."""
    it.is_above, it.is_here = it.key in there.keys, it.digest in there.here
    it.is_again = (it.key, it.digest) in there.documents
    if it.is_above:
        it.notes.append("the bucket holds that key already: it gets one more version")


def skip_doubles(items: Sequence[Item]) -> int:
    """Leaves out what the vault holds already, and what comes a second time; how many these are."""
    for it in items:
        it.is_skipped = not it.wrong and (it.is_doubled or it.is_second)
    return sum(it.is_skipped for it in items)
