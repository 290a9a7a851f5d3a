"""A plain peer: puts, gets and reports in the vault's tables by Python's sqlite3, as durable as the program's.

It reads the script lines that the program reads, makes the same checks of the clock, the caller, the bucket
and the quota, changes the same rows in one transaction for each put, and writes the same replies. It proves
nothing, and knows no locks, notes or rules.
"""

import hashlib
import json
import sqlite3
import sys
from datetime import datetime, timezone

MOST_HELD_BACK = 65_536
QUOTA = 1_000_000_000_000
PUT, GET, REPORT = 4, 32, 1024


class Refused(Exception):
    pass


def connect(path):
    connection = sqlite3.connect(path, isolation_level=None)
    connection.execute("PRAGMA journal_mode = WAL")
    connection.execute("PRAGMA synchronous = FULL")
    connection.execute("PRAGMA foreign_keys = ON")
    return connection


def one(db, statement, *values):
    return db.execute(statement, values).fetchone()


def text_of(seconds):
    return datetime.fromtimestamp(seconds, timezone.utc).strftime("%Y-%m-%dT%H:%M:%SZ")


def seconds_of(text):
    return int(datetime.strptime(text, "%Y-%m-%dT%H:%M:%SZ").replace(tzinfo=timezone.utc).timestamp())


def allowed(db, asked, right):
    """The department of the caller, who has to have the right."""
    caller = one(db, "SELECT dept, rights, closed FROM callers WHERE name = ?", asked["as"])
    if caller is None or caller[2] or not caller[1] & right:
        raise Refused
    return caller[0]


def in_bucket(db, asked, right):
    """The department of the bucket, which has to be the caller's."""
    dept = allowed(db, asked, right)
    bucket = one(db, "SELECT dept, mode, days, years FROM buckets WHERE name = ?", asked["bucket"])
    if bucket is None or bucket[0] != dept:
        raise Refused
    return dept


def admit(db, asked, now, number):
    dept = in_bucket(db, asked, PUT)
    bucket, key, data = asked["bucket"], asked["key"], asked["text"].encode()
    brought = one(db, "SELECT admitted + received FROM departments WHERE name = ?", dept)[0]
    if brought + len(data) > QUOTA:
        raise Refused
    digest = hashlib.sha256(data).digest()
    db.execute(
        "INSERT INTO entries VALUES (?, ?, ?, 0, ?, ?, ?, 0, ?, NULL, NULL, NULL)",
        (number, bucket, key, len(data), digest, now, asked["as"]),
    )
    db.execute("INSERT INTO contents VALUES (?, ?)", (number, data))
    db.execute("INSERT INTO settings VALUES (?, 1, ?, ?, 0, NULL, 0, 0)", (number, now, asked["as"]))
    db.execute("INSERT INTO tenures VALUES (?, 0, ?, ?)", (number, dept, now))
    db.execute(
        "UPDATE departments SET admitted = admitted + ?1, held = held + ?1, weighted = weighted + ?2 WHERE name = ?3",
        (len(data), len(data) * (now // 86_400), dept),
    )
    db.execute(
        "INSERT INTO heads VALUES (?1, ?2, ?3, 1) ON CONFLICT DO UPDATE SET newest = ?3, count = count + 1",
        (bucket, key, number),
    )
    db.execute("UPDATE meta SET last = ?, next = ?", (now, number + 1))
    return {"version_id": number}


def put(db, asked, now):
    db.execute("BEGIN IMMEDIATE")
    try:
        last, number = one(db, "SELECT last, next FROM meta")
        if now < last:
            raise Refused
        answer = admit(db, asked, now, number)
        db.execute("COMMIT")
        return answer
    except BaseException:
        db.execute("ROLLBACK")
        raise


def get(db, asked, now):
    in_bucket(db, asked, GET)
    head = one(db, "SELECT newest FROM heads WHERE bucket = ? AND key = ?", asked["bucket"], asked["key"])
    if head is None:
        raise Refused
    marker, size, digest, admitted = one(
        db, "SELECT marker, size, digest, admitted FROM entries WHERE id = ?", head[0]
    )
    if marker:
        raise Refused
    lock = "SELECT mode, until, hold FROM settings WHERE id = ? ORDER BY n DESC LIMIT 1"
    mode, until, hold = one(db, lock, head[0])
    modes = (None, "GOVERNANCE", "COMPLIANCE")
    return {
        "admitted": text_of(admitted),
        "hex": one(db, "SELECT bytes FROM contents WHERE id = ?", head[0])[0].hex(),
        "hold": "ON" if hold else "OFF",
        "retention": {"mode": modes[mode], "until": text_of(until)} if mode else None,
        "sha256": digest.hex(),
        "size": size,
        "version_id": head[0],
    }


def report(db, asked, now):
    if allowed(db, asked, REPORT) != asked["dept"]:
        raise Refused
    row = "SELECT admitted, received, held, removed, handed, weighted, closed FROM departments WHERE name = ?"
    admitted, received, held, removed, handed, weighted, closed = one(db, row, asked["dept"])
    return {
        "admitted": admitted,
        "at": text_of(now),
        "byte_days": closed + held * (now // 86_400) - weighted,
        "dept": asked["dept"],
        "handed": handed,
        "held": held,
        "received": received,
        "removed": removed,
    }


COMMANDS = {"put": put, "get": get, "report": report}


def answer(db, line):
    asked = json.loads(line)
    try:
        reply = {"ok": COMMANDS[asked["do"]](db, asked, seconds_of(asked["at"]))}
    except Refused:
        reply = {"error": {}}
    return json.dumps(reply, separators=(",", ":"), sort_keys=True) + "\n"


def main():
    db, held_back, size = connect(sys.argv[1]), [], 0
    for line in sys.stdin:
        held_back.append(answer(db, line))
        size += len(held_back[-1])
        if size >= MOST_HELD_BACK:
            sys.stdout.write("".join(held_back))
            sys.stdout.flush()
            held_back, size = [], 0
    sys.stdout.write("".join(held_back))
    db.close()


if __name__ == "__main__":
    main()
