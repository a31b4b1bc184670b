"""The mutants of a crate that `tools/wrong-bodies` tries, and how an edit is read.

An edit is made of a line `file: PATH`, a path in the crate, and of pairs of lines `old: TEXT` and `new: TEXT`; TEXT of `old:` stands once in that file.
One that no clause refuses has a line `test: PART NAME`, the test of that part of tests/ that has to fail over it.
The file `crates/CRATE/wrong-bodies.edits` holds many, each after a line `== NAME`. A file `crates/CRATE/wrong-bodies/NAME.edit` is one more, or
the newer one of that name; `fold` takes such files into the one of their crate. The edits that the gate tries are `crates/CRATE/mutants/NAME.edit`.
"""
import pathlib

TOP = pathlib.Path(__file__).resolve().parent.parent
CRATES = TOP / "crates"
ONE, SINGLE, GATE = "wrong-bodies.edits", "wrong-bodies", "mutants"
HEAD = """# Mutants, which tools/wrong-bodies tries and the gate does not. Each has a line `== NAME`, then `file:`, and pairs of `old:` and `new:`.
"""


def singles(crate, folder=SINGLE):
    """The files of one edit each in a folder of a crate."""
    return sorted((CRATES / crate / folder).glob("*.edit"))


def in_one(crate):
    """The texts of the edits in the one file of a crate, by their names."""
    path, found, name = CRATES / crate / ONE, {}, None
    for number, line in enumerate(path.read_text(encoding="utf-8").split("\n") if path.exists() else [], 1):
        if line.startswith("== "):
            name = line.removeprefix("== ").strip()
            if name in found:
                raise ValueError(f"{path.relative_to(TOP)}:{number}: {name} stands there twice")
            found[name] = ""
        elif line.startswith(("test: ", "file: ", "old: ", "new:")) and name:
            found[name] += line + "\n"
        elif line and not line.startswith("#"):
            raise ValueError(f"{path.relative_to(TOP)}:{number}: neither `== NAME` nor `test:`, `file:`, `old:` or `new:`")
    return found


def edits_of(crate):
    """The texts of the edits of a crate that are no part of the gate, by their names."""
    return dict(sorted({**in_one(crate), **{it.stem: it.read_text(encoding="utf-8") for it in singles(crate)}}.items()))


def all_edits():
    """The same of each crate that has some."""
    return {crate: found for crate in sorted(it.name for it in CRATES.iterdir() if it.is_dir()) if (found := edits_of(crate))}


def of_the_gate(crate):
    """The texts of the edits of a crate that the gate tries, by their names."""
    return {it.stem: it.read_text(encoding="utf-8") for it in singles(crate, GATE)}


def every_of_the_gate():
    """The same of each crate that has some."""
    return {crate: found for crate in sorted(it.name for it in CRATES.iterdir() if it.is_dir()) if (found := of_the_gate(crate))}


def changes_of(text):
    """What an edit changes: the path of a file, the text that stands there once, and what is to stand in its place."""
    path, old, found = None, None, []
    for line in text.split("\n"):
        if line.startswith("file: "):
            path = line.removeprefix("file: ").strip()
        elif line.startswith("old: "):
            old = line.removeprefix("old: ")
        elif line.startswith("new:"):
            found.append((path, old, line.removeprefix("new:").removeprefix(" ")))
    return found


def test_of(text):
    """The part of tests/ and the name of the test that has to fail over an edit; nothing where a clause has to refuse it."""
    for line in text.split("\n"):
        if line.startswith("test: "):
            part, _, name = line.removeprefix("test: ").partition(" ")
            return part, name.strip()
    return None


def has_test(part, name):
    """Whether a part of tests/ has a test of this name."""
    said = f"fn {name}("
    return any(said in it.read_text(encoding="utf-8") for it in (TOP / "tests" / part).rglob("*.rt.txt"))


def applied(text, folder, texts):
    """Makes an edit in `texts`, the files of a crate's folder by their path there. Returns where each change was made: the file as it was before, and the place."""
    for path, old, new in changes_of(text):
        if path not in texts:
            texts[path] = (pathlib.Path(folder) / path).read_text(encoding="utf-8")
        if texts[path].count(old) != 1:
            raise ValueError(f"an old text stands in {path} {texts[path].count(old)} times, and not once: {old[:80]!r}")
        at = texts[path].index(old)
        yield path, old, texts[path], at
        texts[path] = texts[path].replace(old, new)


def bad_edits(crates):
    """A sentence for each edit of these crates, of the gate or not, that does not apply, and how many edits there are."""
    said, count = [], 0
    for crate in crates:
        for folder, edits in ((GATE, of_the_gate(crate)), (SINGLE, edits_of(crate))):
            count += len(edits)
            for name, text in edits.items():
                test = test_of(text)
                if test and not has_test(*test):
                    said.append(f"{crate}/{folder}/{name}: {test[0]} has no test {test[1]}")
                try:
                    if not list(applied(text, CRATES / crate, {})):
                        said.append(f"{crate}/{folder}/{name}: it changes nothing")
                except (OSError, ValueError) as why:
                    said.append(f"{crate}/{folder}/{name}: {why}")
    return said, count


def fold(crate):
    """Takes the files of one edit each into the one file of their crate, and gives how many there were."""
    paths = singles(crate)
    if paths:
        text = HEAD + "".join(f"\n== {name}\n{edit.strip(chr(10))}\n" for name, edit in edits_of(crate).items())
        (CRATES / crate / ONE).write_text(text, encoding="utf-8")
        for path in paths:
            path.unlink()
        if not any((CRATES / crate / SINGLE).iterdir()):
            (CRATES / crate / SINGLE).rmdir()
    return len(paths)
