"""Lines of scripts on the vaults of fixture.py, as the program and the peer read them."""

import itertools
import json
import random

import fixture


def line(do, department=0, **members):
    return json.dumps({"at": fixture.AT, "as": fixture.name_of("ann", department), "do": do, **members})


def of_entry(do, shape, i, **members):
    """A line on the key of the entry of this number."""
    department = i % shape.departments
    return line(do, department, bucket=fixture.name_of("docs", department), key=shape.key(i), **members)


# Its reply is so long that it is written at once, and all that were held back before it.
MARK = line("get", bucket="docs", key=fixture.LONG_KEY)


def put_new(shape):
    """Puts on new keys."""
    for i in itertools.count(shape.entries):
        yield of_entry("put", shape, i, text=fixture.content(i, shape.size).decode())


def put_again(shape):
    """Puts on keys that have a version, picked at random."""
    dice = random.Random(2)
    while True:
        i = dice.randrange(1, shape.entries)
        yield of_entry("put", shape, i, text=fixture.content(i, shape.size).decode())


def get(shape):
    """Gets of keys picked at random."""
    dice = random.Random(1)
    while True:
        yield of_entry("get", shape, dice.randrange(1, shape.entries))


def report(shape):
    """The sums of departments, one after the other."""
    for i in itertools.count():
        department = i % shape.departments
        yield line("report", department, dept=fixture.name_of("records", department))


def remove(shape):
    """Removals of entries by their numbers, from the first short one on."""
    for i in range(1, shape.entries):
        yield of_entry("delete-version", shape, i, id=i + 1)


def list_by_prefix(shape, i):
    """One entry by the whole key of an entry of this number as the prefix."""
    return itertools.repeat(line("list-versions", bucket="docs", prefix=shape.key(i), most=1))


def list_one_of(bucket):
    """The newest entry of the only key of a bucket."""
    return itertools.repeat(line("list-versions", bucket=bucket, most=1))


def list_page(shape):
    """Pages of a hundred versions, each after a key picked at random."""
    dice = random.Random(3)
    while True:
        key = shape.key(dice.randrange(1, shape.entries))
        yield line("list-versions", bucket="docs", after_key=key, most=100)
