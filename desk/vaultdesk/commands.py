"""The subcommands, by the modules that have them: `cli.py` imports a module where one of its words is given."""

from __future__ import annotations

from collections.abc import Mapping

# Of each module that asks about a vault its subcommands, in the order of the help, and what each does. The modules say
# the same of theirs, which a test compares.
FAMILIES: Mapping[str, Mapping[str, str]] = {
    "documents": {
        "put": "put a file's content as a new version",
        "get": "write a version's content to a file",
        "ls": "list what a bucket holds",
        "info": "what a document is, and what guards it now",
    },
    "described": {
        "facts": "the facts of a document, such as its title and its sender: shown, or changed",
    },
    "exporting": {
        "export": "write all documents of a bucket to a folder, with a list that says which is which",
    },
    "find": {
        "find": "find versions, held and removed ones: by a part of the key, content, date, and by facts",
        "held": (
            "what is held, or was at a past moment (--at), with retention and legal hold: whose end has "
            "passed is ended"
        ),
    },
    "history": {
        "history": "all that happened to one version: admission, locks, moves, removal, each with who and when",
    },
    "locks": {
        "hold": "set a legal hold: on one document, on many by prefix, or by a list",
        "release": "lift a legal hold: of one document, of many by prefix, by a list, or all of a case",
        "retain": "set or extend a retention",
        "rm": "put a delete marker on top of a key",
        "delete": "remove a version for good",
    },
    "cases": {
        "cases": "the cases for which versions were put on hold, or the records of one case",
    },
    "policies": {
        "default": "set, clear or print a bucket's default retention",
        "rules": "lifecycle rules of a bucket: list, add, remove, try",
        "expire": "carry out the rules of a department's buckets, after saying what goes and when",
    },
    "deliveries": {
        "deliver": "take in a folder of scans: by an inventory, or each file under its name",
    },
    "years_end": {
        "certificates": "certificates of all removals, a file each and one page",
        "certificate": "the certificate of one removed version",
        "register": "the register of removals, also as a spreadsheet",
        "report": "the sums of a department, or of all: of a past moment (--at) too",
        "charges": "what each department is charged for a time, as CSV: bytes times days",
    },
    "evidence": {
        "verify": "audit the vault: each table, and each byte of content; also while a server has it",
        "lawful": "whether commands can have made this history: each setting and each removal keeps the rules",
        "seal": "the seal of all that happened before a moment: four lines to be deposited with somebody else",
        "check-seals": "whether seals come out of the vault again, a whole year of them in one pass",
        "compare": (
            "whether what an older copy has is unaltered in a newer one, and nothing new is dated before "
            "its end"
        ),
    },
    "answer": {
        "answer": "a page for a court: one version's life, what guarded it at a moment (--at), and what that shows",
    },
    "office": {
        "departments": "list the departments, or add one",
        "buckets": "list the buckets, add one, or move one to another department",
        "callers": "list the callers, add one, or close one for good",
    },
    "people": {
        "people": "who is who: the persons whose names the callers have, from when to when",
    },
    "schedule": {
        "schedule": (
            "the retention schedule of a department: how long each class is kept, from when on, by which "
            "authority"
        ),
        "event": "report an event, as that a case was closed: what waits for it gets the end of its class",
    },
    "disposal": {
        "disposal": "disposal by two: plan what is due, approve the plan as another caller, carry it out",
        "approve": "approve a plan of disposal, as another caller than the one who made it",
        "carry-out": (
            "remove what is still due of an approved plan of disposal, as another caller than the one who "
            "made it"
        ),
    },
    "due": {
        "due": (
            "what is due: ends, old holds, plans that wait, nights that failed, copies that are too few; "
            "also by mail"
        ),
    },
    "trail": {
        "trail": "take a day's log of requests into the vault: refused ones and reads too",
    },
    "whereabouts": {
        "where": "which files still have a document's bytes: the vault, its copies, journals and standbys",
    },
    "status": {
        "status": "say how a vault that is served is, and its server",
    },
    "closing": {
        "close": "end the server of a vault in good order",
    },
}
# Those that look after files, servers and users.
MACHINE: Mapping[str, Mapping[str, str]] = {
    "page": {
        "page": "a page (HTML) of what a vault holds, has removed and will remove",
    },
    "backup": {
        "backup": "make a copy of a vault, and audit the copy",
    },
    "copies": {
        "copies": "the copies of a vault: where, how old, and whether there are enough",
    },
    "wipe": {
        "wipe": "write a vault's file anew without the bytes of what was removed",
    },
    "restoring": {
        "restore": "put a copy of a vault in the vault's place",
    },
    "night": {
        "night": "the night's work on a vault that is served: its rules, a copy, and a seal",
    },
    "server": {
        "offline": "run a command on a vault that is served, while its server is stopped",
        "check": "ask a vault's server whether it serves, and start it anew where its file failed",
    },
    "health_port": {
        "health": "answer load balancers whether a vault takes changes",
    },
    "metrics": {
        "metrics": "numbers of vaults for programs that watch machines",
    },
    "offices": {
        "offices": "several vaults: list, map, registers, reports, backup",
    },
    "users": {
        "users": "the users whom nginx or the pages let in: list, add, password, remove",
    },
    "s3.words": {
        "s3": "a gateway for clients of Amazon S3: serve, key",
    },
    "web.words": {
        "web": "serve the desk as pages for a browser",
    },
    "standby": {
        "standby": "a second machine that follows a vault: begin, follow, take, lag",
    },
    "glue": {
        "unit": "what the units of a vault ask for: started, stop, stopped, failed",
    },
}
