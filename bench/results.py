"""What was measured: for each work, size and who did it the times of its turns, and the most memory; as a table, in a
file, in a page, and as rows of the CSV files that bench/figures prints."""

import csv
import json
import pathlib
import re
import statistics

from turns import PEER, PROGRAM

UNITS = {"microseconds": 1e6, "milliseconds": 1e3}
# Where a page has the table of a part.
PLACE = re.compile(r"(<!-- bench (\w+) -->\n)```\n.*?```\n", re.DOTALL)
# The GiB of memory for which it says how much a vault may have.
FREE = (1, 2, 4, 8, 16)
# How often the peer's time a put is to take at most, by the entries of the vault.
AIMS = {
    "put, new key": {1_000: 0.72, 10_000: 0.72, 100_000: 0.72, 1_000_000: 0.72},
    "put, key with versions": {1_000: 0.72, 10_000: 0.75, 100_000: 0.90, 1_000_000: 1.0},
}
# What the sizes of a part count, where it isn't the entries of the vault.
SIZES = {
    "departments": "departments",
    "volume": "MiB_of_contents",
    "runs": "keys",
    "intakes": "files",
    "mebibytes": "contents_of_1_MiB_a_turn",
    "listings": "entries_or_held_versions",
    "removed": "removed_versions",
    "bodies": "KiB_of_body",
}
HOW = re.compile(
    r"(?P<day>[\d-]+): (?P<processors>\d+) processors, load (?P<load>[\d.]+), SQLite (?P<SQLite>[\d.]+), "
    r"(?P<synced_writes_of_4_KiB_a_second>[\d,]+) synced .*; (?P<turns>\d+) turns of (?P<ops_a_turn>\d+), "
    r"(?P<repeats>\d+) repeats"
)


class Results:
    """The rows of a part of the bench; `unit` is microseconds or milliseconds for one, `how` when and how it ran, and
    `beside` what the program is compared with."""

    def __init__(self, part, unit, how, beside=PEER):
        self.part, self.unit, self.how, self.beside, self.rows = part, unit, how, beside, {}

    def row(self, what, size, who):
        return self.rows.setdefault((what, size), {}).setdefault(who, {"wall": [], "processor": [], "memory": 0})

    def note(self, what, size, who, seconds, processor):
        row, scale = self.row(what, size, who), UNITS[self.unit]
        row["wall"].append(round(seconds * scale, 3))
        row["processor"].append(round(processor * scale, 3))

    def note_memory(self, what, size, who, most):
        row = self.row(what, size, who)
        row["memory"] = max(row["memory"], round(most, 1))

    def kept(self):
        rows = [{"what": what, "size": size, "how": self.how, **found} for (what, size), found in self.rows.items()]
        return {"unit": self.unit, "beside": self.beside, "rows": rows}

    def show(self):
        print("\n" + table(self.part, self.kept()), end="", flush=True)

    def keep(self, path):
        """Puts the part into a file beside others; rows that the file had of other works or sizes stay there."""
        path = pathlib.Path(path)
        kept = json.loads(path.read_text()) if path.exists() else {}
        new = self.kept()
        named = {(row["what"], row["size"]) for row in new["rows"]}
        old = kept.get(self.part, {"rows": []})["rows"]
        new["rows"] += [row for row in old if (row["what"], row["size"]) not in named]
        works = list(dict.fromkeys(row["what"] for row in new["rows"]))
        new["rows"].sort(key=lambda row: (works.index(row["what"]), row["size"]))
        kept[self.part] = new
        path.write_text(json.dumps(kept, indent=1) + "\n")


def median(found, who, kind):
    """The median of the turns; none where there were none."""
    taken = found.get(who, {}).get(kind, [])
    return statistics.median(taken) if taken else None


def times(found, one, other, kind):
    """How often the other's time is in the one's: the median over the turns, in each of which both did the same, one
    right after the other. Where they are exchanged it is the reciprocal."""
    taken = zip(found.get(one, {}).get(kind, []), found.get(other, {}).get(kind, []))
    ratios = [it / by for it, by in taken if it and by]
    return statistics.median(ratios) if ratios else None


def shown(number, digits=0):
    return "-" if not number else f"{number:,.{digits}f}"


def cells(found, both):
    """The cells of a row: of the program, what stands beside it, one by the other, and the memory of both."""
    numbers = [median(found, who, kind) for who in both for kind in ("wall", "processor")]
    ratios = [times(found, *both, kind) for kind in ("wall", "processor")]
    memory = [found.get(who, {}).get("memory") for who in both]
    few = 1 if any(it and it < 10 for it in numbers) else 0
    return [shown(it, few) for it in numbers] + [shown(it, 2) for it in ratios] + [shown(it, 1) for it in memory]


def measured(rows):
    """When and how rows were measured: a line for all of them, or one for each time, with the sizes of then."""
    sizes = {}
    for row in rows:
        sizes.setdefault(row["how"], {})[f"{row['size']:,}"] = None
    if len(sizes) == 1:
        return list(sizes)
    return [f"size {' '.join(of)}: {how}" for how, of in sizes.items()]


def table(part, kept):
    """The rows of a part: of the program and what stands beside it the median by the clock and of a processor, how often
    the other's is in the program's, and the most memory of both."""
    both = (PROGRAM, kept.get("beside", PEER))
    lines = [
        *measured(kept["rows"]),
        f"{part + ', ' + kept['unit'] + ' for one':40}" + "".join(f"{it:>20}" for it in (*both, "times", "most MiB")),
        f"{'':30}{'size':>10}" + "".join(f"{it:>10}" for it in (*["wall", "processor"] * 3, *both)),
    ]
    for row in kept["rows"]:
        lines.append(f"{row['what']:30}{row['size']:>10,}" + "".join(f"{it:>10}" for it in cells(row, both)))
    return "".join(it.rstrip() + "\n" for it in lines)


def figures(part, kept):
    """The rows of a part as the CSV files have them: the day first, and each unit in the name of its column."""
    both, unit, found = (PROGRAM, kept.get("beside", PEER)), kept["unit"], []
    names = [f"{who}_{kind}_{unit}" for who in both for kind in ("wall", "processor")]
    names += ["times_wall", "times_processor", *(f"{who}_most_MiB" for who in both)]
    for row in kept["rows"]:
        how = {name: it.replace(",", "") for name, it in HOW.fullmatch(row["how"]).groupdict().items()}
        numbers = [it.replace(",", "").removesuffix("-") for it in cells(row, both)]
        found.append({**how, "what": row["what"], SIZES.get(part, "entries"): row["size"], **dict(zip(names, numbers))})
    return found


def add_figures(results, folder):
    """Adds the rows of a file of results to the CSV files of a folder; rows of other days, works or sizes stay."""
    for part, kept in json.loads(pathlib.Path(results).read_text()).items():
        path, new = pathlib.Path(folder) / f"{part}.csv", figures(part, kept)
        size = SIZES.get(part, "entries")
        named = {(row["day"], row["what"], str(row[size])) for row in new}
        old = []
        if path.exists():
            with open(path, encoding="utf-8", newline="") as file:
                old = [it for it in csv.DictReader(file) if (it["day"], it["what"], it[size]) not in named]
        with open(path, "w", encoding="utf-8", newline="") as file:
            rows = csv.DictWriter(file, list(new[0]), lineterminator="\n")
            rows.writeheader()
            rows.writerows(old + new)


def memory_by_size(rows):
    """The most memory that the program had at each size, by rising size."""
    most = {}
    for row in rows:
        memory = row.get(PROGRAM, {}).get("memory", 0)
        most[row["size"]] = max(most.get(row["size"], 0), memory)
    return sorted((size, memory) for size, memory in most.items() if memory)


def room(points):
    """How much a vault may have where so much memory is free: memory goes as a line through the first and the last of
    the volumes that were opened."""
    (least, low), (most, high) = points[0], points[-1]
    each = (high - low) / (most - least)
    more = low - each * least
    held = [(1_024 * free - more) / each for free in FREE]
    lines = [
        f"by {least:,} and {most:,} MiB of contents: {each:.2f} MiB of memory for one, and {more:,.0f} more",
        f"{'GiB of free memory':30}" + "".join(f"{it:>10,}" for it in FREE),
        f"{'MiB of contents, at most':30}" + "".join(f"{it:>10,.0f}" for it in held),
    ]
    return "\n".join(lines) + "\n"


def times_of(rows):
    """How often the peer's time is in the program's, for each put, by the size of the vault."""
    found = {}
    for row in rows:
        found.setdefault(row["what"], {})[row["size"]] = times(row, PROGRAM, PEER, "wall")
    return found


def aim(rows, of_our_pages):
    """How often the peer's time is in the program's, for each put by the size of the vault, where the peer's file is as
    SQLite makes it and where it has the program's pages; what is aimed at; and how many are above that."""
    ratios, others = times_of(rows), times_of(of_our_pages)
    sizes = sorted({size for found in ratios.values() for size in found})
    lines = [f"{'':42}" + "".join(f"{it:>10,}" for it in sizes)]
    for what, found in ratios.items():
        rows = ((what, found), (f"{what}, our pages", others.get(what, {})), ("aimed at, at most", AIMS[what]))
        for name, numbers in rows:
            lines.append(f"{name:42}" + "".join(f"{shown(numbers.get(it), 2):>10}" for it in sizes))
    every = [it > AIMS[what][size] for what, found in ratios.items() for size, it in found.items() if size in AIMS[what]]
    lines.append(f"above what is aimed at: {sum(every)} of {len(every)}")
    return "".join(it.rstrip() + "\n" for it in lines)


def fill(results, page):
    """Puts the tables of a file of results into their places in a page."""
    kept, page = json.loads(pathlib.Path(results).read_text()), pathlib.Path(page)
    tables = {part: table(part, found) for part, found in kept.items()}
    if "puts" in kept:
        tables["aim"] = aim(kept["puts"]["rows"], kept.get("pages", {"rows": []})["rows"])
    volumes = memory_by_size(kept.get("volume", {"rows": []})["rows"])
    if len(volumes) > 1:
        tables["room"] = room(volumes)

    def filled(place):
        return f"{place[1]}```\n{tables[place[2]]}```\n" if place[2] in tables else place[0]

    page.write_text(PLACE.sub(filled, page.read_text()))
