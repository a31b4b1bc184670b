"""The program that the tests of tests/ make: which parts it has, which crates they name, how it is built, and how one test runs.

The sources end in .rt.txt, since `rt ci` proves each .rt that it finds.
"""
import pathlib
import re
import shutil
import subprocess
import tempfile
import time

from building import crates as crates_below
from building import rows
from tried import build

TOP = pathlib.Path(__file__).resolve().parent.parent
SOURCES, PROGRAM = TOP / "tests", TOP / "tests" / "out" / "tests"
ENDING = ".rt.txt"
# How long a test may take, in seconds.
MOST_SECONDS = 300


def parts():
    """The parts of the tests, each with its files."""
    found = {it.name.removesuffix(ENDING): it for it in sorted(SOURCES.glob("*" + ENDING)) if it.name != "lib" + ENDING}
    return {name: [top, *sorted((SOURCES / name).rglob("*" + ENDING))] for name, top in found.items()}


def text_of(files):
    return "\n".join(it.read_text(encoding="utf-8") for it in files)


def crates_of(part):
    """The crates of this tree that a part names."""
    return set(rows()) & set(re.findall(r"\b([a-z_]+)::", text_of(parts()[part])))


def libraries():
    """The libraries, of this tree and of the kit, that the tests name."""
    kit = pathlib.Path(subprocess.run(["rt", "doc"], capture_output=True, text=True, check=True).stdout.strip()).parent
    known = {*rows(), *(it.stem for it in (kit / "rlibs").glob("*.rlib"))} - {"std", "core"}
    return sorted(known & set(re.findall(r"\b([a-z_]+)::", text_of(SOURCES.rglob("*" + ENDING)))))


def lay_out(room, crates=TOP / "crates"):
    """Writes a tree to the folder `room` that has the tests as a crate `tests` over the sources in `crates`, and gives that crate's folder."""
    named = libraries()
    below = {it for name in named if name in rows() for it in crates_below(name)}
    for name in below:
        for part in ("src", "specs"):
            if (crates / name / part).is_dir():
                shutil.copytree(crates / name / part, room / "crates" / name / part)
    shutil.copy(TOP / "HANDLES", room)
    (room / "crates.txt").write_text("".join(rows()[it] for it in rows() if it in below) + f"tests: {' '.join(named)}\n", encoding="utf-8")
    crate = room / "crates" / "tests"
    for file in SOURCES.rglob("*" + ENDING):
        place = crate / "src" / file.relative_to(SOURCES).with_suffix("")
        place.parent.mkdir(parents=True, exist_ok=True)
        shutil.copy(file, place)
    return crate


def build_over(crates, program):
    """Builds the program of the tests, unverified and with its checks on, over the sources in this folder."""
    with tempfile.TemporaryDirectory(prefix="ramp-tests-") as room:
        build(lay_out(pathlib.Path(room), crates), program, "quick", words=["--test"])
    program.with_suffix(".bc").unlink(missing_ok=True)


def test_program():
    """The program over this tree, which is built where a source is newer."""
    sources = [it for part in ("src", "specs") for it in (TOP / "crates").glob(f"*/{part}/**/*")] + [*SOURCES.rglob("*" + ENDING), TOP / "crates.txt"]
    if not PROGRAM.exists() or PROGRAM.stat().st_mtime <= max(it.stat().st_mtime for it in sources):
        build_over(TOP / "crates", PROGRAM)
    return PROGRAM


def names_in(program):
    """The names of all tests in a program."""
    told = subprocess.run([program, "--list"], capture_output=True, text=True, check=True).stdout
    return re.findall(r"^(\S+): test$", told, re.MULTILINE)


def run_test(program, name):
    """Runs one test in a process of its own. Gives whether it passed, what it printed, and its seconds."""
    begun = time.monotonic()
    try:
        ran = subprocess.run([program, name], cwd=TOP, stdin=subprocess.DEVNULL, stdout=subprocess.PIPE, stderr=subprocess.STDOUT, timeout=MOST_SECONDS, check=False)
        is_well, said = ran.returncode == 0, ran.stdout
    except subprocess.TimeoutExpired as ended:
        is_well, said = False, (ended.stdout or b"") + f"\nit took over {MOST_SECONDS} s".encode()
    return is_well, said.decode(errors="replace").strip(), time.monotonic() - begun
