"""Rows whose scripts are long: of many keys, of contents and of lines at their greatest length.

What each is to be replied is worked out here by the rules, and not by the program."""

import itertools
import json

OPENING_AT = "2014-01-01T00:00:00Z"
# What a version or a line may have.
MOST_CONTENT, MOST_LINE = 1_048_576, 4_194_304
# How many lists may lie one in another in a member of a line.
MOST_NESTED = 126
# A listing's entries.
MOST_LISTED = 1_000
DONE = {"ok": {}}
MALFORMED = {"error": {"code": "MalformedBody", "n": 12}}
INVALID = {"error": {"code": "InvalidArgument", "n": 10}}
# How many rules a bucket has at most.
MOST_RULES = 1_000


def text_of(asked_or_told):
    return json.dumps(asked_or_told, separators=(",", ":")) + "\n"


def line(at, who, do, **members):
    return {"at": at, "as": who, "do": do, **members}


def opening():
    """A department, its two callers and its bucket, with the replies."""
    works = "put get list delete delete-version retain hold config run report".split()
    for do, members in [
        ("add-dept", {"dept": "records"}),
        ("add-caller", {"caller": "ann", "dept": "records", "rights": works}),
        ("add-caller", {"caller": "gov", "dept": "records", "rights": ["delete-version", "retain", "bypass"]}),
        ("add-bucket", {"bucket": "docs", "dept": "records"}),
    ]:
        yield line(OPENING_AT, "registrar", do, **members), DONE


def ran(lone, marked, removed=0):
    return {"ok": {"changes": lone + marked + removed, "lone": lone, "marked": marked, "removed": removed}}


def entry(at, is_current, is_marker, key, size, number):
    return {
        "admitted": at,
        "current": is_current,
        "delete_marker": is_marker,
        "key": key,
        "size": size,
        "version_id": number,
    }


def pages(at, entries):
    """Listings of these entries, a page each, with the replies."""
    after = {}
    for begin in range(0, max(len(entries), 1), MOST_LISTED):
        page = entries[begin:begin + MOST_LISTED]
        more = begin + MOST_LISTED < len(entries)
        yield line(at, "ann", "list-versions", bucket="docs", **after), {"ok": {"entries": page, "more": more}}
        if page:
            after = {"after_key": page[-1]["key"], "after_id": page[-1]["version_id"]}


def over_keys(count, do, told, run_reply, entries):
    """A bucket with that many keys, `k0000` up, over which a rule of one day is run, and run again."""
    put_at, run_at = "2024-03-01T08:00:00Z", "2024-03-03T00:00:00Z"
    rule = {"ID": "r1", "Status": "Enabled", "Expiration": {"Days": 1}}
    yield from opening()
    yield line(OPENING_AT, "ann", "set-rules", bucket="docs", rules=[rule]), DONE
    for number in range(1, count + 1):
        key = f"k{number - 1:04}"
        yield line(put_at, "ann", do[0], bucket="docs", key=key, **do[1]), {"ok": {**told, "version_id": number}}
    yield line(run_at, "ann", "run", bucket="docs"), run_reply
    yield line(run_at, "ann", "run", bucket="docs"), ran(0, 0)
    yield from pages(run_at, [it for number in range(1, count + 1) for it in entries(number, put_at, run_at)])


def marked(count):
    """Each key's version gets a marker; the markers' ids follow on the versions' in the order of the keys."""

    def entries(number, put_at, run_at):
        key = f"k{number - 1:04}"
        return entry(run_at, True, True, key, 0, count + number), entry(put_at, False, False, key, 1, number)

    return over_keys(count, ("put", {"text": "x"}), {}, ran(0, count), entries)


def removed(count):
    """Each key has a marker alone, with which the key goes; those of a page are gone when the next is asked for."""
    return over_keys(count, ("delete", {}), {"delete_marker": True}, ran(count, 0), lambda *_: ())


def content():
    """A version has up to 1,048,576 bytes."""
    at = "2024-01-15T10:30:00Z"
    yield from opening()
    for size, reply in [
        (MOST_CONTENT, {"ok": {"version_id": 1}}),
        (MOST_CONTENT + 1, {"error": {"code": "EntityTooLarge", "n": 13}}),
        (1, {"ok": {"version_id": 2}}),
    ]:
        yield line(at, "ann", "put", bucket="docs", key="a", text="a" * size), reply
    total = MOST_CONTENT + 1
    sums = {"admitted": total, "at": at, "byte_days": 0, "dept": "records", "handed": 0, "held": total}
    sums |= {"received": 0, "removed": 0}
    yield line(at, "ann", "report", dept="records"), {"ok": sums}


def bounds():
    """Of the greatest size, content is above a bound of a byte less and below a bound of a byte more: what is current
    gets a marker, and what is below that goes."""
    put_at, run_at = "2024-03-01T08:00:00Z", "2024-03-03T00:00:00Z"
    actions = {"Status": "Enabled", "Expiration": {"Days": 1}, "NoncurrentVersionExpiration": {"NoncurrentDays": 1}}
    rules = [
        {"ID": "r1", "Prefix": "a", **actions, "ObjectSizeGreaterThan": MOST_CONTENT - 1},
        {"ID": "r2", "Prefix": "b", **actions, "ObjectSizeLessThan": MOST_CONTENT + 1},
    ]
    yield from opening()
    yield line(OPENING_AT, "ann", "set-rules", bucket="docs", rules=rules), DONE
    for number, key in enumerate("aabb", 1):
        put = line(put_at, "ann", "put", bucket="docs", key=key, text="a" * MOST_CONTENT)
        yield put, {"ok": {"version_id": number}}
    yield line(run_at, "ann", "run", bucket="docs"), ran(0, 2, removed=2)
    yield line(run_at, "ann", "run", bucket="docs"), ran(0, 0)
    left = [
        entry(run_at, True, True, "a", 0, 5),
        entry(put_at, False, False, "a", MOST_CONTENT, 2),
        entry(run_at, True, True, "b", 0, 6),
        entry(put_at, False, False, "b", MOST_CONTENT, 4),
    ]
    yield from pages(run_at, left)


def long_line(length, replies):
    """A line of that many bytes, blanks after its object, and one that is answered in any case."""
    add = text_of(line(OPENING_AT, "registrar", "add-dept", dept="d"))
    return add[:-1].ljust(length) + "\n" + add, "".join(map(text_of, replies))


def deep_lines():
    """Puts with two members `text`, of which the last counts: the first is lists within lists, up to what a line may have and
    deeper. And a line of brackets alone. What is refused changes nothing."""
    at = "2024-01-15T10:30:00Z"
    put = text_of(line(at, "ann", "put", bucket="docs", key="a", text="x"))
    asked = [(text_of(it), reply) for it, reply in opening()]
    asked += [
        (put.replace('"text"', f'"text":{"[" * MOST_NESTED}{"]" * MOST_NESTED},"text"'), {"ok": {"version_id": 1}}),
        (put.replace('"text"', f'"text":{"[" * (MOST_NESTED + 1)}{"]" * (MOST_NESTED + 1)},"text"'), MALFORMED),
        (put.replace('"text"', f'"text":{"[" * 1_000_000}{"]" * 1_000_000},"text"'), MALFORMED),
        ("[" * MOST_LINE + "\n", MALFORMED),
        (put, {"ok": {"version_id": 2}}),
    ]
    sums = {"admitted": 2, "at": at, "byte_days": 0, "dept": "records", "handed": 0, "held": 2, "received": 0, "removed": 0}
    asked.append((text_of(line(at, "ann", "report", dept="records")), {"ok": sums}))
    return "".join(it for it, _ in asked), "".join(text_of(reply) for _, reply in asked)


def limits_in_words():
    """Lines at a limit and beyond it that are refused, with the words for each: what is at the limit has another fault."""
    rule = {"ID": "r", "Status": "Enabled", "Expiration": {"Days": 1}}
    rules = [{**rule, "ID": f"r{number}"} for number in range(MOST_RULES + 1)]
    without = [*rules[:MOST_RULES - 1], {"ID": "last", "Status": "Enabled"}]
    ends = "no JSON: the line ends within its object, and each line has a whole object, as "
    example = line("2024-01-15T10:30:00Z", "ann", "get", bucket="docs", key="2024/a")
    asked = [
        (text_of(line(OPENING_AT, "ann", "set-rules", bucket="docs", rules=without)), INVALID,
         'rule 1000: the rule has no action, as "Expiration":{"Days":30}\n'),
        (text_of(line(OPENING_AT, "ann", "set-rules", bucket="docs", rules=rules)), INVALID,
         '"rules" has more than 1,000 rules\n'),
        ("{".ljust(MOST_LINE) + "\n", MALFORMED, ends + text_of(example)),
        ("{".ljust(MOST_LINE + 1) + "\n", MALFORMED, "the line has more than 4,194,304 bytes\n"),
    ]
    words = [f"line {number}: {text}" for number, (_, _, text) in enumerate(asked, 1)]
    return *map("".join, zip(*((it, text_of(reply)) for it, reply, _ in asked))), "".join(words)


def long_rows():
    """The name, the script and the replies of each, and what is on standard error where that is wanted."""
    taken = {"error": {"code": "NameTaken", "n": 9}}
    of_lines = {
        "lines-longest": long_line(MOST_LINE, [DONE, taken]),
        "lines-too-long": long_line(MOST_LINE + 1, [MALFORMED, DONE]),
        "lines-deep": deep_lines(),
        "lines-refused-in-words-at-limits": limits_in_words(),
    }
    of_pairs = {"content-longest": content(), "run-by-bounds-of-longest": bounds()}
    for count, (name, made) in itertools.product((3, 256, 257, 600), (("marked", marked), ("removed", removed))):
        of_pairs[f"run-{count}-keys-{name}"] = made(count)
    for name, pairs in of_pairs.items():
        of_lines[name] = ["".join(map(text_of, it)) for it in zip(*pairs)]
    for name, (script, replies, *words) in of_lines.items():
        yield name, script.encode(), replies.encode(), words[0].encode() if words else None
