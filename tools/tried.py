"""Builds a program as it stands, unverified: `rt try` makes its LLVM module, which is kept and compiled as a proved one is.

python3 tools/tried.py CRATE PROGRAM [LEVEL]: of the crate in the folder CRATE, optimized at this level (3).
python3 tools/tried.py CRATE PROGRAM quick: in a quarter of the time of level 1. It takes some seven times its CPU time to run. The
module stays beside it, in PROGRAM.bc.
python3 tools/tried.py CRATE PROGRAM module LEVEL: of the module that lies there; it is removed."""
import os
import pathlib
import shutil
import signal
import subprocess
import sys
import tempfile
import time

from begin import begin, give_up

# What a quick program is made with: unused functions go, small places become registers, and only what shrinks by it is inlined.
QUICK = "globaldce,function(sroa,simplifycfg,memcpyopt,dse),cgscc(inline,function(simplifycfg)),globaldce"

# Before the program's own module `rt try` writes one of some hundred bytes, to see that it can compile.
LEAST_MODULE = 4096


def find_module(room):
    """The program's module where it is written whole: its compilation has begun, which a second file in its folder shows."""
    for found in pathlib.Path(room).rglob("module.bc"):
        if found.stat().st_size >= LEAST_MODULE and any(found.parent.glob("*.o.tmp")):
            return found
    return None


def make_module(crate, module, words=("--", "--help")):
    """Has `rt try` write the module, and ends it then: it would go on to compile and run the program. `--test` among the words makes that of the tests."""
    with tempfile.TemporaryDirectory() as room, open(f"{room}/said", "w+", encoding="utf-8", errors="replace") as said:
        trying = subprocess.Popen(["rt", "try", *words], cwd=crate, env={**os.environ, "TMPDIR": room}, stdin=subprocess.DEVNULL, stdout=said, stderr=said)
        try:
            while True:
                has_ended = trying.poll() is not None
                try:
                    if found := find_module(room):
                        shutil.copy(found, module)
                        return
                except OSError:
                    pass  # it was removed meanwhile
                if has_ended:
                    said.seek(0)
                    sys.exit(f"{said.read()}rt try made no program of {crate}")
                time.sleep(0.05)
        finally:
            trying.terminate()
            trying.wait()


def compile_quickly(tools, module, made):
    """The linker's own optimizer takes any list of passes; what it makes of the module is kept, and what it links is not."""
    passed_over = made.with_suffix(".none")
    subprocess.run([tools / "bin/ld.lld", "-pie", "-u", "main", "-e", "main", "--unresolved-symbols=ignore-all", "--lto-partitions=1", "--lto-CGO0",
                    f"--lto-newpm-passes={QUICK}", "-mllvm", "-inline-threshold=0", f"--lto-obj-path={made}", "-o", passed_over, module], check=True)
    passed_over.unlink()


def compile_at(tools, module, made, level):
    subprocess.run([tools / "bin/clang", "--target=x86_64-unknown-linux-gnu", f"--sysroot={tools}", "-march=x86-64-v2", "--no-default-config",
                    "-c", "-x", "ir", module, "-o", made, "-fPIE", f"-O{level}"], check=True)


def build(crate, program, level=3, has_module=False, words=("--", "--help")):
    """Builds the program of a crate's folder, or its tests by the words `--test`. What stands at `program` is replaced at the end, in one step."""
    kit = pathlib.Path(subprocess.run(["rt", "doc"], capture_output=True, text=True, check=True).stdout.strip()).parent
    module, made, linked = (program.with_suffix(suffix) for suffix in (".bc", ".o", ".linked"))
    program.parent.mkdir(parents=True, exist_ok=True)
    if not has_module:
        make_module(crate, module, words)
    if level == "quick":
        compile_quickly(kit / "toolchain", module, made)
    else:
        compile_at(kit / "toolchain", module, made, level)
    linking = subprocess.run([kit / "bin/rattle-link", "--target", "x86_64-unknown-linux-gnu", "--toolchain", kit / "toolchain", "-o", linked, made,
                              kit / "c/libos_c.a", kit / "c/liblibc_c.a"], stdout=subprocess.PIPE, stderr=subprocess.STDOUT, text=True)
    if linking.returncode:
        sys.exit(f"{linking.stdout}the program was not linked")
    linked.replace(program)
    made.unlink()
    if level != "quick":
        module.unlink()


def build_over_tree(folder, below):
    """The program whose sources are in `FOLDER/NAME` of this tree, over its crates: `FOLDER/out/NAME.bin`, built again where a source is newer.
    `below` are the crates that it names."""
    top = pathlib.Path(__file__).resolve().parent.parent
    own, name = top / folder, pathlib.Path(folder).name
    program = own.parent / "out" / f"{name}.bin"
    sources = [file for part in ("src", "specs") for file in (top / "crates").glob(f"*/{part}/**/*")] + [*own.iterdir()]
    if program.exists() and program.stat().st_mtime > max(file.stat().st_mtime for file in sources):
        return program
    # Not in this tree: the gate refuses one that has a second crates.txt in it.
    with tempfile.TemporaryDirectory() as temporary:
        room = pathlib.Path(temporary)
        shutil.copytree(top / "crates", room / "crates", ignore=shutil.ignore_patterns("out"))
        shutil.copy(top / "HANDLES", room)
        (room / "crates.txt").write_text((top / "crates.txt").read_text() + f"{name}: {below}\n")
        crate = room / "crates" / name
        (crate / "src").mkdir(parents=True)
        # The names end in .txt there, since the gate would prove each crate that it finds.
        for file in own.glob("*.rt.txt"):
            shutil.copy(file, crate / "src" / file.stem)
        (crate / "specs").mkdir()
        (crate / "specs" / "Lib.antt").touch()
        build(crate, program)
    return program


def main():
    signal.signal(signal.SIGTERM, lambda *_: sys.exit(143))  # so that what runs below is ended too
    if len(sys.argv) < 3:
        give_up("a folder CRATE and a file PROGRAM are expected; --help says more", 2)
    levels = sys.argv[3:]
    build(pathlib.Path(sys.argv[1]), pathlib.Path(sys.argv[2]), *levels[-1:], has_module=levels[:1] == ["module"])


if __name__ == "__main__":
    sys.exit(begin(main, __doc__, None, "rt"))
