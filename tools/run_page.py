#!/usr/bin/env python3
"""Runs the steps that a page of docs/ shows, and compares what they print.

usage: run_page.py PROGRAM PAGE

A block of the page that begins with ```text NAME is the file NAME from there on. In a block that begins with ```console each line behind `$ ` is run by
bash, in a folder with these files, the examples and the program as ./tam; the lines behind it are what it prints. Tells each line that prints
something else, and last 'N passed, M failed'.
"""
import os
import subprocess
import sys
import tempfile

SECONDS = 60
ROOT = os.path.dirname(os.path.dirname(os.path.abspath(__file__)))


def blocks_of(page):
    """The info string and the lines of each block."""
    info, lines = None, []
    for line in page.splitlines():
        if not line.startswith("```"):
            lines.append(line)
        elif info is None:
            info, lines = line[3:], []
        else:
            yield info, lines
            info = None


def steps_of(lines):
    """The commands of a console block, each with the text that it prints."""
    steps = []
    for line in lines:
        if line.startswith("$ "):
            steps.append((line[2:], []))
        else:
            steps[-1][1].append(line + "\n")
    return [(command, "".join(printed)) for command, printed in steps]


def run(command, folder):
    done = subprocess.run(["bash", "-c", command], cwd=folder, stdin=subprocess.DEVNULL, stdout=subprocess.PIPE, timeout=SECONDS)
    return done.stdout.decode()


def main():
    if len(sys.argv) != 3:
        sys.exit(__doc__.split("\n\n")[1])
    program = os.path.abspath(sys.argv[1])
    with open(sys.argv[2]) as file:
        page = file.read()
    passed = failed = 0
    with tempfile.TemporaryDirectory() as folder:
        os.symlink(program, os.path.join(folder, "tam"))
        os.symlink(os.path.join(ROOT, "examples"), os.path.join(folder, "examples"))
        for info, lines in blocks_of(page):
            if info.startswith("text "):
                with open(os.path.join(folder, info[len("text "):]), "w") as file:
                    file.write("".join(line + "\n" for line in lines))
            for command, wanted in steps_of(lines) if info == "console" else []:
                printed = run(command, folder)
                if printed == wanted:
                    passed += 1
                else:
                    failed += 1
                    print(f"{command}\n  want {wanted!r}\n  got  {printed!r}")
    print(f"{passed} passed, {failed} failed")
    return 1 if failed or not passed else 0


if __name__ == "__main__":
    sys.exit(main())
