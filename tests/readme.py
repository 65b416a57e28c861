"""Runs every command that README.md shows, and compares what it prints with what README.md says that it prints.

    python3 tests/readme.py [FILE]

A command is an indented line that begins with `$ `. What it must print, on standard output and standard error, stands below it, up to the
next command or the end of the block; a line `...` stands for any lines. All commands are run one after another by one bash, in a copy of
this folder, with target/make first in PATH, so that `exchange` is the command that make built. The exit status of this is 1 if something
else is printed, with the difference.
"""

import difflib
import os
import re
import shutil
import subprocess
import sys
import tempfile
from pathlib import Path

ROOT = Path(__file__).resolve().parents[1]
BUILT = ROOT / "target" / "make"
INDENT = "    "
PROMPT = INDENT + "$ "
ELSE = "..."
MARK = "--- the end of a command of README.md ---"


def commands_of(text):
    """The line number, the command, and the lines that it must print."""
    found = []
    inside = False
    for number, line in enumerate(text.splitlines(), 1):
        if line.startswith(PROMPT):
            found.append((number, line[len(PROMPT) :], []))
            inside = True
        elif inside and (line.startswith(INDENT) or not line):
            found[-1][2].append(line[len(INDENT) :])
        else:
            inside = False
    return [(number, command, without_empty_end(lines)) for number, command, lines in found]


def without_empty_end(lines):
    """Lines without the empty ones after the last that is not: a block's end shows no more than that."""
    return lines[: max((at for at, line in enumerate(lines, 1) if line), default=0)]


def printed_by(commands, folder):
    """What each command prints. Each sees the exit status of the one before it."""
    script = "".join(f"{command}\nstatus=$?; printf '\\n%s\\n' '{MARK}'; (exit $status)\n" for _, command, _ in commands)
    library = next(BUILT.glob("libhours_exchange.so.*"), "")
    environment = dict(
        os.environ,
        PATH=f"{BUILT}:{os.environ['PATH']}",
        PYTHONPATH=str(ROOT / "python"),
        PYTHONDONTWRITEBYTECODE="1",
        HOURS_EXCHANGE_LIBRARY=str(library),
        LC_ALL="C.UTF-8",
    )
    done = subprocess.run(
        ["bash", "-c", script], cwd=folder, env=environment, stdin=subprocess.DEVNULL, stdout=subprocess.PIPE, stderr=subprocess.STDOUT, timeout=600
    )
    parts = done.stdout.decode().split(f"\n{MARK}\n")
    if len(parts) != len(commands) + 1:
        sys.exit(f"readme.py: {len(parts) - 1} of {len(commands)} commands were run; the last printed:\n{parts[-1]}")
    return [without_empty_end(part.splitlines()) for part in parts[:-1]]


def matches(printed, expected):
    """Whether lines are those that are expected, where `...` stands for any."""
    pattern = "".join("(?:.*\n)*" if line == ELSE else re.escape(line) + "\n" for line in expected)
    return re.fullmatch(pattern, "".join(line + "\n" for line in printed)) is not None


def copied(folder):
    """A copy of what is kept of this folder, without what rt and make left, and with an empty target."""
    shutil.copytree(ROOT, folder, ignore=shutil.ignore_patterns("target", "out", ".git", "__pycache__"), symlinks=True)
    (folder / "target").mkdir()


def main():
    name = Path(sys.argv[1]) if len(sys.argv) > 1 else ROOT / "README.md"
    commands = commands_of(name.read_text())
    if not commands:
        sys.exit(f"readme.py: {name} shows no command")
    with tempfile.TemporaryDirectory() as room:
        folder = Path(room) / "exchange"
        copied(folder)
        answers = printed_by(commands, folder)
    failed = 0
    for (number, command, expected), printed in zip(commands, answers):
        if not matches(printed, expected):
            failed += 1
            print(f"{name.name}:{number}: $ {command}")
            print("\n".join(difflib.unified_diff(expected, printed, name.name, "printed", lineterm="", n=1)))
    print(f"readme: {len(commands) - failed} of {len(commands)} commands print what README.md says")
    return 1 if failed else 0


if __name__ == "__main__":
    sys.exit(main())
