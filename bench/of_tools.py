"""What the benches share with the scripts of tools/: how each begins, and how a program is built unverified over this tree."""
import pathlib
import sys

sys.path.append(str(pathlib.Path(__file__).resolve().parent.parent / "tools"))

from begin import FILE, NUMBER, NUMBERS, THOUSANDS, begin, check_words, give_up, need, proved_program, tell_help
from tried import build, build_over_tree

__all__ = ["FILE", "NUMBER", "NUMBERS", "THOUSANDS", "begin", "build", "build_over_tree", "check_words", "give_up", "need", "proved_program", "tell_help"]
