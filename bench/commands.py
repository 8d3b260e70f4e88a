#!/usr/bin/env python3
"""Runs the command lines that README.md and docs/GUIDE.md show, and compares what they print with what is printed there.

usage: bench/commands.py [PROGRAM]

PROGRAM stands for ./comch, which is run where no program is named. In a block of the kind `console` a line that begins
with `$ ` is a command for bash, and what stands below it is what it prints, where a line `...` stands for any number of
lines. In a block of the kind `pycon` stands a session of Python. All of them run in a folder that has what the
repository has. One line is printed for each that differs, and the status is 1 where one does.
"""

import doctest
import os
import re
import subprocess
import sys
import tempfile
from pathlib import Path

TOP = Path(__file__).resolve().parent.parent
PAGES = ["README.md", "docs/GUIDE.md"]
BLOCK = re.compile(r"^```(console|pycon)\n(.*?)^```$", re.M | re.S)


def commands_of(block, first):
    """The commands of a block, each with its line and the lines below it."""
    found = []
    for number, line in enumerate(block.splitlines(), first):
        if line.startswith("$ "):
            found.append((number, line[2:], []))
        else:
            found[-1][2].append(line)
    return found


def agrees(wanted, printed):
    """Whether these lines are those that are wanted, where `...` stands for any number of lines."""
    pattern = "".join("(?:.*\n)*?" if line == "..." else re.escape(line) + "\n" for line in wanted)
    return re.fullmatch(pattern, "".join(line + "\n" for line in printed)) is not None


def run_command(page, number, command, wanted, folder):
    ran = subprocess.run(["bash", "-c", command], cwd=folder, stdout=subprocess.PIPE, text=True, check=False)
    if agrees(wanted, ran.stdout.splitlines()):
        return True
    print(f"{page} line {number}: {command}\n  prints, with status {ran.returncode}:")
    print("".join(f"  {line}\n" for line in ran.stdout.splitlines()[:40]), end="")
    return False


def run_session(page, number, block, names):
    """Runs a session of Python. It goes on with the names of the sessions before it on the page."""
    session = doctest.DocTestParser().get_doctest(block, names, f"{page} line {number}", page, number - 1)
    failed = doctest.DocTestRunner().run(session, clear_globs=False).failed
    names.update(session.globs)
    return failed == 0


def main():
    if len(sys.argv) > 2 or sys.argv[1:] in (["-h"], ["--help"]):
        sys.exit(__doc__)
    program = Path(sys.argv[1] if len(sys.argv) > 1 else TOP / "comch").resolve()
    passed = failed = 0
    with tempfile.TemporaryDirectory() as folder:
        for entry in TOP.iterdir():
            if entry.name not in (".git", "comch"):
                (Path(folder) / entry.name).symlink_to(entry)
        (Path(folder) / "comch").symlink_to(program)
        os.environ["COMCH"] = str(program)
        sys.path.insert(0, str(TOP / "python"))
        os.chdir(folder)
        for page in PAGES:
            text, names = (TOP / page).read_text(encoding="utf-8"), {}
            for block in BLOCK.finditer(text):
                first = text.count("\n", 0, block.start(2)) + 1
                if block[1] == "pycon":
                    results = [run_session(page, first, block[2], names)]
                else:
                    results = [run_command(page, *command, folder) for command in commands_of(block[2], first)]
                passed, failed = passed + results.count(True), failed + results.count(False)
    print(f"{passed} agree, {failed} differ")
    sys.exit(1 if failed else 0)


if __name__ == "__main__":
    main()
