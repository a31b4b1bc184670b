"""What ./install puts beside the server: ramp-cli, ramp-bench, and what bash and zsh complete of each program."""
from __future__ import annotations

import os
import pathlib
import pty
import shutil
import subprocess
import tempfile
import time
import unittest

from servers import ALL, TOP, Server, program

TRIED = """
source "$1"
COMP_WORDS=("${@:2}") COMP_CWORD=$(($# - 2))
"$(complete -p "$2" | sed 's/.*-F \\([^ ]*\\) .*/\\1/')"
echo "${COMPREPLY[@]}"
"""

# Ctrl-T writes the line to a file, and clears it.
OF_ZSH = """
fpath=("$FUNCTIONS" $fpath); autoload -Uz compinit && compinit -u -D
tell() { print -r -- "$BUFFER" > "$TOLD.new" && mv "$TOLD.new" "$TOLD"; BUFFER=; }
zle -N tell && bindkey '^T' tell && bindkey '^I' complete-word && : > "$TOLD"
"""


class Zsh:
    """A zsh at a terminal that completes what is typed."""

    def __init__(self, functions: pathlib.Path, folder: pathlib.Path):
        self.told, begun = folder / "told", folder / "begin"
        begun.write_text(OF_ZSH)
        self.terminal, other = pty.openpty()
        environment = {"PATH": os.environ["PATH"], "TERM": "dumb", "HOME": str(folder), "FUNCTIONS": str(functions), "TOLD": str(self.told)}
        self.process = subprocess.Popen(["zsh", "-f", "-i"], stdin=other, stdout=subprocess.DEVNULL, stderr=subprocess.DEVNULL, env=environment, start_new_session=True)
        os.close(other)
        self.type(f"source {begun}\n")

    def type(self, text: str) -> str:
        """The line once this is typed, as Ctrl-T writes it."""
        self.told.unlink(missing_ok=True)
        os.write(self.terminal, text.encode())
        end = time.monotonic() + ALL
        while not self.told.exists():
            if time.monotonic() > end:
                raise AssertionError(f"zsh does not answer {text!r}")
            time.sleep(0.01)
        return self.told.read_text().rstrip("\n")

    def close(self) -> None:
        self.process.kill()
        self.process.wait()
        os.close(self.terminal)


class Installed(unittest.TestCase):
    def setUp(self) -> None:
        folder = tempfile.TemporaryDirectory()
        self.addCleanup(folder.cleanup)
        self.prefix = pathlib.Path(folder.name) / "prefix"
        # Nothing of the tree is found by itself.
        self.environment = {name: value for name, value in os.environ.items() if name not in ("PYTHONPATH", "RAMP_URL", "PYTHONDONTWRITEBYTECODE")}
        self.installed = self.run_words(str(TOP / "install"), "--program", program(), str(self.prefix)).splitlines()

    def run_words(self, *words: str) -> str:
        told = subprocess.run(words, capture_output=True, text=True, timeout=4 * ALL, env=self.environment, cwd="/", check=False)
        self.assertEqual(told.returncode, 0, (words, told.stderr))
        return told.stdout

    def completed(self, *words: str) -> list[str]:
        return self.run_words("bash", "-c", TRIED, "bash", str(self.prefix / "share/bash-completion/completions" / words[0]), *words).split()

    def test_programs_run_completion_completes_and_all_goes_again(self) -> None:
        with Server("--sessions", "16", "t") as server:
            cli = str(self.prefix / "bin" / "ramp-cli")
            self.assertEqual(self.run_words(cli, "--client", "1", server.url(), "put", "x=1"), "done 1.1\n")
            if shutil.which("cargo"):
                told = self.run_words(str(self.prefix / "bin" / "ramp-bench"), "--connections", "1", "--count", "10", "--json", server.url())
                self.assertIn('"requests":10', told)
            self.assertEqual(server.stop(), ["settled t yes"])
        name = next(pathlib.Path(it).name for it in self.installed if pathlib.Path(it).name in ("ramp", "ramp-unproved"))
        for words, shown in (((name, "se"), ["serve"]), ((name, "help", "se"), ["serve"]), ((name, "serve", "--st"), ["--stay", "--strict", "--status"]), ((name, "serve", "--port", ""), []),
                             ((name, "load", "--se"), ["--seats", "--seed"]), (("rampd", "--co"), ["--config", "--counts"]), (("rampd", "--config", "/etc/host"), None),
                             (("ramp-cli", "--ten"), ["--tenant"]), (("ramp-cli", "--json", "put-"), ["put-text", "put-json"]), (("ramp-cli", "get", ""), []),
                             (("ramp-cli", "--port", ""), [])):
            told = self.completed(*words)
            self.assertTrue(told == shown if shown is not None else "/etc/hosts" in told, (words, told))
        if shutil.which("cargo"):
            self.assertEqual(self.completed("ramp-bench", "--c"), ["--connections", "--count", "--csv"])
        if shutil.which("zsh"):
            self.check_zsh(name)
        for page in ("ramp-cli", "ramp-bench") if shutil.which("cargo") else ("ramp-cli",):
            self.assertIn("usage" if page == "ramp-cli" else "OPTIONS", (self.prefix / f"share/man/man1/{page}.1").read_text())
        self.run_words(str(TOP / "install"), "--uninstall", str(self.prefix))
        self.assertEqual(list(self.prefix.rglob("*")) if self.prefix.exists() else [], [])

    def check_zsh(self, name: str) -> None:
        """What zsh makes of a line and Tab. Where several words fit it goes as far as they agree."""
        zsh = Zsh(self.prefix / "share/zsh/site-functions", self.prefix.parent)
        self.addCleanup(zsh.close)
        for typed, shown in ((f"{name} se", f"{name} serve "), (f"{name} serve --st", f"{name} serve --st"), (f"{name} serve --sta", f"{name} serve --sta"),
                             (f"{name} serve --str", f"{name} serve --strict "), (f"{name} load --see", f"{name} load --seed "), (f"{name} serve --port 1 --ep", f"{name} serve --port 1 --epoch "),
                             ("rampd --conf", "rampd --config "), ("rampd --config /etc/hostn", "rampd --config /etc/hostname "), ("ramp-cli --ten", "ramp-cli --tenant "),
                             ("ramp-cli --json put-j", "ramp-cli --json put-json "), ("ramp-cli --port ", "ramp-cli --port ")):
            self.assertEqual(zsh.type(f"{typed}\t\x14"), shown, typed)


if __name__ == "__main__":
    unittest.main()
