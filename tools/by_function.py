"""The functions of a source by their places, as the prover names them, and the prover itself, over the libraries that `rt ci` left."""
import functools
import os
import re
import subprocess

from building import crates as crates_below
from building import rows

FUNCTION = re.compile(r"( *)(?:pub(?:\([a-z ]+\))? )?(?:const )?(?:unsafe )?fn (\w+)")
IMPL = re.compile(r"(?:unsafe )?impl(?:<.*?>)? (?:(\w+)(?:<.*>)? for )?(?:&(?:'\w+ )?(?:mut )?)?(\w+)")


def function_at(path, text, at):
    """The end of what a check calls the function that holds this place of a file, or nothing where none does."""
    rows = text[:at].split("\n")
    place = next((it for it in reversed(range(len(rows))) if FUNCTION.match(rows[it])), None)
    if place is None:
        return None
    indent, name = FUNCTION.match(rows[place]).groups()
    owner = next((at for it in reversed(range(place)) if (at := IMPL.match(rows[it]))), None) if indent else None
    file = os.path.basename(path).removesuffix(".rt")
    if owner and owner[1] == "Drop":
        # It is named as a method of the type.
        return f"{owner[2]}::{name}"
    return f"{owner[2]}{owner[1] or ''}::{name}" if owner else name if file in ("lib", "main", "mod") else f"{file}::{name}"


def is_in_body(text, at):
    """Whether this place is inside the braces of a function's body."""
    rows = text[:at].split("\n")
    place = next((it for it in reversed(range(len(rows))) if FUNCTION.match(rows[it])), None)
    if place is None:
        return False
    indent = FUNCTION.match(rows[place])[1]
    begins = [row for number, row in enumerate(rows[place:-1]) if row == indent + "{" or (row.endswith("{") and (not number or row.startswith(indent + ")")))]
    return bool(begins) and indent + "}" not in rows[place:]


def rows_of(function, path, text):
    """The numbers of the rows, from 1, of a function of that name as function_at gives it."""
    rows, at, found = text.split("\n"), 0, set()
    for number, row in enumerate(rows):
        at += len(row) + 1
        if (head := FUNCTION.match(row)) and function_at(path, text, at - 1) == function:
            end = next((it for it in range(number, len(rows)) if rows[it] == head[1] + "}"), number)
            found.update(range(number + 1, end + 2))
    return found


@functools.cache
def kit():
    return os.path.dirname(subprocess.run(["rt", "doc"], capture_output=True, text=True, check=True).stdout.strip())


def prover(folder):
    """The words by which `rt ci` calls the prover for the crate in this folder of a copy, over the libraries beside it."""
    crate, known = os.path.basename(folder), rows()
    named = known[crate].partition(":")[2].split()
    words = [f"{kit()}/bin/rattle", "check", "--crate-name", crate, "src/lib.rt"]
    for name in ["std", *(it for it in named if it not in known)]:
        words += ["--extern", f"{name}={kit()}/rlibs/{name}.rlib"]
    words += ["-L", f"dependency={kit()}/rlibs"]
    room = os.path.dirname(folder)
    for name in named:
        if name in known:
            words += ["--extern", f"{name}={room}/{name}/out/rlib/{name}.rlib"]
    for name in crates_below(crate):
        if name != crate:
            words += ["-L", f"dependency={room}/{name}/out/rlib"]
    return [*words, "--antt-project", f"{kit()}/rattle/logic/antt-project.json", "--logic-built", f"{kit()}/logic_built", "--links", f"{crate}=", "--jobs", "1",
            "--incremental", f"{folder}/out/incremental"]


def prover_over_sources(folder):
    """The same words over the sources of the crates below, whose contracts they state: nothing below has to be proved. Only functions are proved so."""
    crate, known = os.path.basename(folder), rows()
    room, chain = os.path.dirname(folder), [it for it in crates_below(crate) if it != crate]
    named = {name: known[name].partition(":")[2].split() for name in [crate, *chain]}
    of_kit = dict.fromkeys(["std", "core", *(it for name in [crate, *chain] for it in named[name] if it not in known)])
    words = [f"{kit()}/bin/rattle", "check", "--crate-name", crate, "src/lib.rt", "-L", f"dependency={kit()}/rlibs"]
    for name in of_kit:
        words += ["--extern", f"{name}={kit()}/rlibs/{name}.rlib"]
    for name in chain:
        words += ["--lib", f"{name}:{','.join(dict.fromkeys(['core', 'std', *named[name]]))}={room}/{name}/src/lib.rt"]
    return [*words, "--antt-project", f"{kit()}/rattle/logic/antt-project.json", "--logic-built", f"{kit()}/logic_built", "--links", f"{crate}=", "--jobs", "1"]
