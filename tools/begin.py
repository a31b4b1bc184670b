"""How each script here begins: with its help, or with one sentence about what it lacks."""
import os
import pathlib
import re
import shutil
import signal
import subprocess
import sys

TOP = pathlib.Path(__file__).resolve().parent.parent
TOOLS = {"rt": "the toolchain of Rattle, which builds the program", "cc": "a C compiler, by which Rust's links",
         "rustc": "the compiler of Rust", "cargo": "what builds programs of Rust", "git": "git"}
NUMBER, NUMBERS, THOUSANDS, FILE = "a number", "numbers separated by commas", "a number such as 1,000", "a file"
SPELLED = {NUMBER: r"[0-9]+", NUMBERS: r"[0-9]+(,[0-9]+)*", THOUSANDS: r"[0-9]+(,[0-9]{3})*", FILE: r"[^-].*"}


def give_up(told, status=1):
    """Ends the script with this sentence."""
    print(f"{os.path.relpath(os.path.realpath(sys.argv[0]), TOP)}: {told}", file=sys.stderr)
    sys.exit(status)


def check_words(given, words):
    """Ends the script where its words are not those that are expected."""
    for word, (name, kind) in zip(given, words.items()):
        if not re.fullmatch(SPELLED[kind], word):
            give_up(f"{name} is {kind}, and {word!r} is none; --help says more", 2)
    if len(given) > len(words):
        give_up(f"{given[len(words)]!r} is one argument too many; --help says more", 2)


def tell_help(text):
    """Prints the text; whoever reads it may stop early, as head does."""
    signal.signal(signal.SIGPIPE, signal.SIG_DFL)
    print(text.strip())


def begin(main, text, words, *tools):
    """Prints the text where help is asked for; else runs main, over words of these names and kinds and with these tools, and gives its status."""
    given = sys.argv[1:]
    if "-h" in given or "--help" in given:
        tell_help(text)
        return 0
    if words is not None:
        check_words(given, words)
    for tool in tools:
        need(tool)
    try:
        return main()
    except KeyboardInterrupt:
        return 130
    except subprocess.CalledProcessError as error:
        if error.stderr:
            return give_up(f"{error.cmd[0]}: {error.stderr.strip().splitlines()[-1]}")
        # It said itself what was wrong.
        return error.returncode if error.returncode > 0 else 1
    except FileNotFoundError as error:
        if error.filename in TOOLS:
            need(error.filename)
        return give_up(f"there is no {error.filename}")
    except shutil.Error as error:
        return give_up(f"a copy failed: {error.args[0][0][2]}" if isinstance(error.args[0], list) else str(error))
    except OSError as error:
        return give_up(f"{error.filename or 'a file or socket'}: {error.strerror or error}")


def need(tool):
    """Ends the script where this tool is not in PATH."""
    if not shutil.which(tool):
        give_up(f"{tool} is not in PATH: {TOOLS.get(tool, 'this needs it')}", 125)


def proved_program():
    """Where the proved program lies; ./ramp builds it first where it is missing or older than a source."""
    return subprocess.run([TOP / "ramp", "--where"], stdout=subprocess.PIPE, check=True, text=True).stdout.strip()
