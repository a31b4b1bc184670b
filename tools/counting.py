"""What `tools/counts` counts in the sources, each with the places where it stands, and the limits in `tools/limits.txt`."""
import collections
import pathlib
import re

from begin import give_up

TOP = pathlib.Path(__file__).resolve().parent.parent
CRATES = TOP / "crates"
LIMITS = TOP / "tools" / "limits.txt"
TESTS = {"tests_surface", "tests_surface_programs"}
MODEL = "oracle"
"""A program that has the names of the definitions that it evaluates."""
REQUIRED = {"StandsFor"}
"""What several crates are to define, each of itself."""

MOST_CLAUSES = 10
FUNCTION = re.compile(r"\s*(?:pub(?:\([a-z ]+\))? )?(?:const )?(?:unsafe )?fn \w+")
CLAUSE = re.compile(r"\s*(?:requires|ensures)\b")
TYPE = re.compile(r"(?:pub(?:\([a-z ]+\))? )?(?:struct|enum|union|trait|type) (\w+)")
DEFINED = re.compile(r"(?:pub )?(?:record|data) (\w+)")
ROOM = re.compile(r"(?<![\w.])(?:529|716|717|745|1452|3001|3003)\b(?!\.)")
"""Sizes of encoded values, which follow from the limits of `stamps`."""
BOUND = re.compile(r"(?<!<)[<≤] ?(?:16|32|64|128)(?![\w.])|2 \^ 40(?!\w)")
"""The limits of `stamps` that contracts and definitions bound something by: keys, bytes of a key, a tag and a value, partitions, tenants, counters."""
TO_SEAT = """
server_sessions/src/line_session.rt: answer_lines answer_piece answer
server_sessions/src/given.rt: ask_seat
"""
TO_CELL = """
hub/src/operation.rt: exchange
hub/src/dispatcher.rt: dispatch
shard/src/shard.rt: serve_round serve
traced_book/src/traced.rt: serve_into
partition/src/book.rt: serve_admitted
partition/src/shelf.rt: apply_into
"""
TO_PUT = TO_SEAT + """
hub/src/by_clock.rt: put_by_clock_into
hub/src/seat.rt: run
""" + TO_CELL
WALKS = {
    "PREPARE": TO_PUT + """
prepare_commit/src/cell.rt: apply_into prepare
version_chain/src/chains.rt: insert_from
""",
    "COMMIT": TO_PUT + """
prepare_commit/src/cell.rt: apply_into commit_counted
version_chain/src/chains.rt: mark_slot
""",
    "GET": TO_SEAT + """
hub/src/seat.rt: get_all_into run
""" + TO_CELL + """
prepare_commit/src/cell.rt: apply_into get
version_chain/src/chains.rt: latest
""",
}
"""The functions from a line of a session, as `rampd` serves it, to the chain of an item that its calls write or read. Each calls the next one."""
COSTS = {"gate_minutes", "proof_minutes", "tests_minutes", "function_megabytes"}
FILES_OF_ALL = {"lib.rt", "main.rt", "mod.rt"}


class Sources:
    """The lines of each source: of the code by its path below `crates`, and of the definitions and proofs."""

    def __init__(self):
        self.code = self.read("src/**/*.rt")
        self.definitions = self.read("specs/**/*.antt")
        self.proofs = self.read("proofs/**/*.antt")

    @staticmethod
    def read(pattern):
        return {str(it.relative_to(CRATES)): it.read_text(encoding="utf-8").split("\n") for it in sorted(CRATES.glob(f"*/{pattern}"))}


def crate_of(path):
    return path.split("/")[0]


def lines(files):
    """Each line with its path and its number."""
    for path, text in files.items():
        for number, line in enumerate(text, 1):
            yield path, number, line


def place(path, number, what=""):
    return f"crates/{path}:{number}" + (f": {what}" if what else "")


def functions(sources):
    return [place(path, number) for path, number, line in lines(sources.code) if FUNCTION.match(line)]


def clauses(sources):
    """The place of each clause, and how wide its widest line is. A clause ends where its braces do."""
    for path, text in sources.code.items():
        for number, line in enumerate(text, 1):
            if CLAUSE.match(line):
                depth, widest = 0, 0
                for row in text[number - 1 :]:
                    depth += row.count("{") - row.count("}")
                    widest = max(widest, len(row))
                    if depth <= 0:
                        break
                yield place(path, number), widest


def clauses_over(sources, columns):
    return [f"{where}: {widest} columns" for where, widest in clauses(sources) if widest > columns]


def crowded(sources):
    """Each function with more clauses than a reader keeps in mind."""
    for path, text in sources.code.items():
        starts = [number for number, line in enumerate(text) if FUNCTION.match(line)]
        for start, end in zip(starts, [*starts[1:], len(text)]):
            count = sum(1 for line in text[start:end] if CLAUSE.match(line))
            if count > MOST_CLAUSES:
                yield place(path, start + 1, f"{count} clauses")


def names(sources):
    """Each name of a type that stands for several things: it is declared in several places of the code, or of crates whose code has none of
    that name. The definition of a crate that has the name of a type in its code is of that type."""
    coded, defined = collections.defaultdict(list), collections.defaultdict(list)
    for files, declared, found in ((sources.code, TYPE, coded), (sources.definitions, DEFINED, defined)):
        for path, number, line in lines(files):
            if (it := declared.match(line)) and crate_of(path) not in TESTS | {MODEL} and it[1] not in REQUIRED:
                found[it[1]].append((path, number))
    said = []
    for name in sorted({*coded, *defined}):
        crates = {crate_of(path) for path, _ in coded[name]}
        places = coded[name] + [it for it in defined[name] if crate_of(it[0]) not in crates]
        if len(places) > 1:
            said.append(f"{name}: " + ", ".join(place(*it) for it in places))
    return said


def files(sources):
    """Each name that files of code in several places have, so that it does not say what is in them."""
    found = collections.defaultdict(list)
    for path in sources.code:
        if crate_of(path) not in TESTS | {MODEL} and path.split("/")[-1] not in FILES_OF_ALL:
            found[path.split("/")[-1]].append(f"crates/{path}")
    return [f"{name}: {', '.join(paths)}" for name, paths in sorted(found.items()) if len(paths) > 1]


def rooms(sources):
    """Each size of an encoded value that stands as a number."""
    return [place(path, number, it) for files in (sources.code, sources.definitions, sources.proofs) for path, number, line in lines(files)
            for it in ROOM.findall(re.sub(r"(?://|--).*", "", line))]


def bounds(sources):
    """Each limit of the store that stands as a number outside of `stamps`, where a change of it has to be followed."""
    return [place(path, number, it.strip()) for files in (sources.code, sources.definitions) for path, number, line in lines(files)
            for it in BOUND.findall(re.sub(r"(?://|--).*", "", line)) if crate_of(path) not in TESTS | {"stamps"}]


def body_of(text, name):
    """The number of the line that declares this function, and the lines from there to its end."""
    for number, line in enumerate(text, 1):
        if declared := re.match(rf"(\s*)(?:pub(?:\([a-z ]+\))? )?fn {name}\b", line):
            return number, text[number - 1 : text.index(declared[1] + "}", number)]
    return None, []


def frames(sources):
    """Each function of the deepest walk, by its place. Where one of them does not call the next, the walk has to be written anew."""
    return max((walked(sources, call, walk) for call, walk in WALKS.items()), key=len)


def walked(sources, call, walk):
    steps = [(path, name) for path, names in (row.split(": ") for row in walk.split("\n") if row) for name in names.split()]
    found = [body_of(sources.code.get(path, []), name) for path, name in steps]
    for (path, name), (number, body), (_, then) in zip(steps, found, [*steps[1:], steps[-1]]):
        if number is None or (path, name) != steps[-1] and not any(re.search(rf"(?<!fn )\b{then}(?:::<[^>]*>)?\(", line) for line in body):
            give_up(f"the walk of a {call}: {name} of crates/{path} does not call {then}, so WALKS of tools/counting.py has to be written anew")
    return [place(path, number, name) for (path, name), (number, _) in zip(steps, found)]


def edits(_):
    return [str(it.relative_to(TOP)) for pattern in ("*/mutants/*.edit", "*/wrong-bodies/*.edit", "*/wrong-bodies.edits") for it in sorted(CRATES.glob(pattern))]


COUNTS = {
    "functions": ("functions", functions),
    "clauses": ("clauses of contracts", lambda it: [where for where, _ in clauses(it)]),
    "crowded": (f"functions with over {MOST_CLAUSES} clauses", lambda it: list(crowded(it))),
    "clauses_over_100": ("clauses with a line of over 100 columns", lambda it: clauses_over(it, 100)),
    "clauses_over_160": ("clauses with a line of over 160 columns", lambda it: clauses_over(it, 160)),
    "names": ("names of types with several meanings", names),
    "files": ("file names that stand in several places", files),
    "rooms": ("sizes of encoded values as numbers", rooms),
    "bounds": ("limits of the store as numbers in contracts and definitions", bounds),
    "frames": ("functions from a line of a session to the deepest chain that it reaches", frames),
    "edits": ("files of edits", edits),
}
"""What each count is of, and what gives its places. Those that have a line in the limits are bounded."""


def counted():
    """The places of each count."""
    sources = Sources()
    return {name: find(sources) for name, (_, find) in COUNTS.items()}


def limits():
    """The limits by their names: minutes, megabytes and counts."""
    rows = [it.split() for it in LIMITS.read_text(encoding="utf-8").splitlines() if it.strip() and not it.startswith("#")]
    found = {name: float(most) for name, most in rows}
    wrong = COSTS.symmetric_difference(found).difference(COUNTS)
    if wrong:
        raise ValueError(f"{', '.join(sorted(wrong))}: lacks, or is neither a cost nor a count")
    return found


def told_over(found, most):
    """Prints a sentence for each count that is over its limit, and says whether there is one."""
    over = [name for name in found if name in most and len(found[name]) > most[name]]
    for name in over:
        print(f"{name}: {len(found[name])} {COUNTS[name][0]}, {most[name]:.0f} at most; tools/counts {name} prints them")
    return bool(over)


def lowered(found):
    """Writes the limits anew where a count is below its own, and gives how many that were."""
    text, count = [], 0
    for line in LIMITS.read_text(encoding="utf-8").splitlines():
        name = line.split()[0] if line.strip() else ""
        if name in found and len(found[name]) < float(line.split()[1]):
            line, count = f"{name:20}{len(found[name]):8}", count + 1
        text.append(line)
    LIMITS.write_text("\n".join(text) + "\n", encoding="utf-8")
    return count
