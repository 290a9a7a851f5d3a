"""Which values may stand in a row by itself: kinds, names, numbers, moments, and values that go together.

Each table has a function that yields what is wrong with one of its rows, in words; a row that may stand yields nothing.
"""

from typing import Callable, Iterator

from vault_recheck.vault import COMPLIANCE, GOVERNANCE, INSIDE, LAST_MOMENT, OUTSIDE, Row, Value

MOST_IDS = 1_000_000_000
MOST_SETTINGS = 1_000_000_000
MOST_MOVES = 1_000_000_000
MOST_CONTENT = 1_048_576
# What a version may have at most, by the schema: where its bytes are gone, they may have been kept outside.
MOST_SIZES = {INSIDE: MOST_CONTENT, OUTSIDE: 5_368_709_120}
MOST_LINE = 4_294_967_295
MOST_RULES = 1_000
MOST_DAY_COUNT = 2_147_483_647
ALL_RIGHTS = 4_095
DIGEST = 32
LOWER_OR_DIGIT = frozenset("abcdefghijklmnopqrstuvwxyz0123456789")
BUCKET = LOWER_OR_DIGIT | {"-"}
PLAIN = BUCKET | {"_", "."}

Faults = Iterator[str]


# ---- single values


def is_number(value: Value, least: int = 0, most: int = 2**63 - 1) -> bool:
    return isinstance(value, int) and least <= value <= most


def is_flag(value: Value) -> bool:
    return is_number(value, 0, 1)


def is_moment(value: Value) -> bool:
    return is_number(value, 0, LAST_MOMENT)


def is_id(value: Value) -> bool:
    return is_number(value, 1, MOST_IDS)


def is_digest(value: Value) -> bool:
    return isinstance(value, bytes) and len(value) == DIGEST


def is_text(value: Value) -> bool:
    """UTF-8 without control characters."""
    return isinstance(value, str) and not any(it < " " or it == "\x7f" or "\ud800" <= it <= "\udfff" for it in value)


def is_prefix(value: Value) -> bool:
    return isinstance(value, str) and is_text(value) and len(value.encode()) <= 1_024


def is_key(value: Value) -> bool:
    return value != "" and is_prefix(value)


def is_plain_name(value: Value) -> bool:
    """The name of a caller, a department or a batch."""
    return isinstance(value, str) and 1 <= len(value) <= 64 and PLAIN.issuperset(value)


def is_bucket_name(value: Value) -> bool:
    if not isinstance(value, str) or not 3 <= len(value) <= 63 or not BUCKET.issuperset(value):
        return False
    return value[0] in LOWER_OR_DIGIT and value[-1] in LOWER_OR_DIGIT


def is_rule_id(value: Value) -> bool:
    return isinstance(value, str) and is_text(value) and 1 <= len(value) <= 255


def is_null_or(is_so: Callable[[Value], bool], value: Value) -> bool:
    return value is None or is_so(value)


def is_day_count(value: Value) -> bool:
    return is_number(value, 1, MOST_DAY_COUNT)


# ---- values that go together


def retention_faults(mode: Value, until: Value) -> Faults:
    if mode == 0:
        if until is not None:
            yield f"no retention, and an end {until!r}"
    elif mode not in (GOVERNANCE, COMPLIANCE):
        yield f"no retention mode: {mode!r}"
    elif not is_moment(until):
        yield f"no end of a retention: {until!r}"


def default_faults(mode: Value, days: Value, years: Value) -> Faults:
    if mode == 0:
        if days is not None or years is not None:
            yield "no default retention, and a period of one"
    elif mode not in (GOVERNANCE, COMPLIANCE):
        yield f"no retention mode: {mode!r}"
    elif (days is None) == (years is None):
        yield "a default retention has either days or years"
    elif not (is_number(days, 1, 36_500) or is_number(years, 1, 100)):
        yield f"no period of a default retention: {days!r} days, {years!r} years"


def extent_faults(marker: Value, size: Value, digest: Value, most: int) -> Faults:
    if not is_flag(marker):
        yield f"neither a marker nor a version: {marker!r}"
    elif marker and (size != 0 or digest is not None):
        yield "a delete marker with a size or a digest"
    elif not marker and not is_number(size, 0, most):
        yield f"no size: {size!r}"
    elif not marker and not is_digest(digest):
        yield "a version without a digest of 32 bytes"


def author_faults(by_rule: Value, by: Value) -> Faults:
    if not is_flag(by_rule):
        yield f"admitted neither by a rule nor by a caller: {by_rule!r}"
    elif not (is_rule_id(by) if by_rule else is_plain_name(by)):
        yield f"admitted by {by!r}, which is no {'rule id' if by_rule else 'caller name'}"


def removal_faults(at: Value, cause: Value, by: Value) -> Faults:
    if at is None and cause is None and by is None:
        return
    if not is_moment(at):
        yield f"no moment of a removal: {at!r}"
    elif not is_number(cause, 0, 2):
        yield f"no cause of a removal: {cause!r}"
    elif not (is_rule_id(by) if cause == 2 else is_plain_name(by)):
        yield f"removed by {by!r}, which is no {'rule id' if cause == 2 else 'caller name'}"


def noncurrent_faults(days: Value, keep: Value) -> Faults:
    if not is_null_or(is_day_count, days):
        yield f"no NoncurrentDays: {days!r}"
    elif keep is not None and (days is None or not is_number(keep, 1, 100)):
        yield f"no NewerNoncurrentVersions: {keep!r}, with NoncurrentDays {days!r}"


def bound_faults(larger: Value, smaller: Value) -> Faults:
    if larger is not None and not is_number(larger, 0, MOST_CONTENT):
        yield f"no ObjectSizeGreaterThan: {larger!r}"
    elif smaller is not None and not is_number(smaller, 1, MOST_CONTENT + 1):
        yield f"no ObjectSizeLessThan: {smaller!r}"
    elif isinstance(larger, int) and isinstance(smaller, int) and larger >= smaller:
        yield f"ObjectSizeGreaterThan {larger} isn't below ObjectSizeLessThan {smaller}"


# ---- rows, with their columns in the order of the tables


def meta_faults(row: Row) -> Faults:
    one, schema, last, following, moves, *later = row
    if one != 1:
        yield f"the row has the key {one!r} in the place of 1"
    wanted = OUTSIDE if later else INSIDE
    if schema != wanted:
        yield f"the schema is {schema!r}, and the tables are those of {wanted}"
    if later not in ([], [0, 1]):
        yield f"place is {later[0]!r} and done {later[1]!r}, and they are 0 and 1 in each vault"
    if not is_moment(last):
        yield f"no last moment: {last!r}"
    if not is_number(following):
        yield f"no next id: {following!r}"
    if not is_number(moves, 0, MOST_MOVES):
        yield f"no number of moves: {moves!r}"


def department_faults(row: Row) -> Faults:
    name, *sums = row
    if not is_plain_name(name):
        yield f"no name of a department: {name!r}"
    for it in sums:
        if not is_number(it):
            yield f"department {name!r} has a sum {it!r}"


def caller_faults(row: Row) -> Faults:
    name, dept, rights, closed = row
    if not is_plain_name(name):
        yield f"no name of a caller: {name!r}"
    if not is_null_or(is_plain_name, dept):
        yield f"caller {name!r} has no name of a department: {dept!r}"
    if not is_number(rights, 0, ALL_RIGHTS):
        yield f"caller {name!r} has no rights: {rights!r}"
    if not is_flag(closed):
        yield f"caller {name!r} is neither open nor closed: {closed!r}"


def bucket_faults(row: Row) -> Faults:
    name, dept, *default = row
    if not is_bucket_name(name):
        yield f"no name of a bucket: {name!r}"
    if not is_plain_name(dept):
        yield f"bucket {name!r} has no name of a department: {dept!r}"
    yield from (f"bucket {name!r}: {it}" for it in default_faults(*default))


def rule_faults(row: Row) -> Faults:
    bucket, n, id, prefix, enabled, days, lone, noncurrent_days, keep, larger, smaller = row
    where = f"rule {n!r} of bucket {bucket!r}: "
    if not is_bucket_name(bucket):
        yield f"no name of a bucket: {bucket!r}"
    if not is_number(n, 1, MOST_RULES):
        yield f"no place of a rule: {n!r}"
    if not is_rule_id(id):
        yield f"{where}no id: {id!r}"
    if not is_prefix(prefix):
        yield f"{where}no prefix: {prefix!r}"
    if not is_flag(enabled) or not is_flag(lone):
        yield f"{where}enabled is {enabled!r}, lone {lone!r}"
    if not is_null_or(is_day_count, days):
        yield f"{where}no Days: {days!r}"
    yield from (where + it for it in noncurrent_faults(noncurrent_days, keep))
    yield from (where + it for it in bound_faults(larger, smaller))


def entry_faults(row: Row, schema: int) -> Faults:
    id, bucket, key, marker, size, digest, admitted, by_rule, by, removed, cause, cause_by = row
    if not is_id(id):
        yield f"no version id: {id!r}"
    if not is_bucket_name(bucket):
        yield f"entry {id!r} has no name of a bucket: {bucket!r}"
    if not is_key(key):
        yield f"entry {id!r} has no key: {key!r}"
    if not is_moment(admitted):
        yield f"entry {id!r} has no moment of admission: {admitted!r}"
    yield from (f"entry {id!r}: {it}" for it in extent_faults(marker, size, digest, MOST_SIZES[schema]))
    yield from (f"entry {id!r}: {it}" for it in author_faults(by_rule, by))
    yield from (f"entry {id!r}: {it}" for it in removal_faults(removed, cause, cause_by))


def content_faults(row: Row) -> Faults:
    id, content = row
    if not is_id(id):
        yield f"no version id: {id!r}"
    if not isinstance(content, bytes) or len(content) > MOST_CONTENT:
        yield f"version {id!r} has no content of at most {MOST_CONTENT} bytes"


def setting_faults(row: Row) -> Faults:
    id, n, at, by, mode, until, hold, bypass = row
    where = f"setting {n!r} of version {id!r}: "
    if not is_id(id):
        yield f"no version id: {id!r}"
    if not is_number(n, 1, MOST_SETTINGS):
        yield f"version {id!r} has a setting at {n!r}"
    if not is_moment(at):
        yield f"{where}no moment: {at!r}"
    if not is_plain_name(by):
        yield f"{where}no caller: {by!r}"
    if not is_flag(hold) or not is_flag(bypass):
        yield f"{where}hold is {hold!r}, bypass {bypass!r}"
    yield from (where + it for it in retention_faults(mode, until))


def intake_faults(row: Row, schema: int) -> Faults:
    bucket, batch, line, key, size, digest, mode, until, hold, id = row
    where = f"line {line!r} of batch {batch!r} into {bucket!r}: "
    if not is_bucket_name(bucket):
        yield f"no name of a bucket: {bucket!r}"
    if not is_plain_name(batch):
        yield f"no name of a batch: {batch!r}"
    if not is_number(line, 1, MOST_LINE):
        yield f"no number of a line: {line!r}"
    if not is_key(key):
        yield f"{where}no key: {key!r}"
    if not is_number(size, 0, MOST_SIZES[schema]):
        yield f"{where}no size: {size!r}"
    if not is_digest(digest):
        yield f"{where}no digest of 32 bytes"
    if not is_null_or(is_flag, hold):
        yield f"{where}hold is {hold!r}"
    if not is_id(id):
        yield f"{where}no version id: {id!r}"
    yield from (where + it for it in retention_faults(mode, until))


def head_faults(row: Row) -> Faults:
    bucket, key, newest, count = row
    if not is_bucket_name(bucket):
        yield f"no name of a bucket: {bucket!r}"
    if not is_key(key):
        yield f"no key: {key!r}"
    if not is_id(newest):
        yield f"key {key!r} of bucket {bucket!r} has no newest entry: {newest!r}"
    if not is_number(count):
        yield f"key {key!r} of bucket {bucket!r} has no count: {count!r}"


def tenure_faults(row: Row) -> Faults:
    id, number, dept, since = row
    if not is_id(id):
        yield f"no version id: {id!r}"
    if not is_number(number, 0, MOST_MOVES):
        yield f"version {id!r} has a tenure by no move: {number!r}"
    if not is_plain_name(dept):
        yield f"version {id!r} has a tenure of no department: {dept!r}"
    if not is_moment(since):
        yield f"version {id!r} has a tenure since no moment: {since!r}"


def external_faults(row: Row) -> Faults:
    (id,) = row
    if not is_id(id):
        yield f"no version id: {id!r}"
