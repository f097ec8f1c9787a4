#!/usr/bin/env python3
"""Runs cases on a built program, and compares its standard output and status byte for byte.

usage: run_cases.py PROGRAM FOLDER

Each file FOLDER/*.json is a list of cases. A case has `says` (what it shows), `words`, `files` (their text by name, or
{"hex": ..}, {"example": NAME} of the folder examples, or {"repeat": [TEXT, COUNT], "behind": TEXT}), `stdout` and
`status`. One that is `uncounted` has N in the place of each number of instructions, which nothing outside the program told.
Prints a line for each case that differs, and last 'N passed, M failed'.
"""
import glob
import json
import os
import re
import subprocess
import sys
import tempfile

SECONDS = 60

EXAMPLES = os.path.join(os.path.dirname(os.path.dirname(os.path.abspath(__file__))), "examples")


def content(value):
    if isinstance(value, str):
        return value.encode()
    if "hex" in value:
        return bytes.fromhex(value["hex"])
    if "example" in value:
        with open(os.path.join(EXAMPLES, value["example"]), "rb") as file:
            return file.read()
    text, count = value["repeat"]
    return (text * count + value.get("behind", "")).encode()


def answer(program, case):
    with tempfile.TemporaryDirectory() as folder:
        for name, value in case["files"].items():
            with open(os.path.join(folder, name), "wb") as file:
                file.write(content(value))
        words = [program] + [word if isinstance(word, str) else content(word).decode() for word in case["words"]]
        run = subprocess.run(words, cwd=folder, stdin=subprocess.DEVNULL, stdout=subprocess.PIPE, stderr=subprocess.PIPE, timeout=SECONDS)
        return run.returncode, run.stdout


def main():
    program, folder = os.path.abspath(sys.argv[1]), sys.argv[2]
    passed = failed = 0
    for path in sorted(glob.glob(os.path.join(folder, "*.json"))):
        with open(path) as file:
            cases = json.load(file)
        for case in cases:
            want = (case["status"], content(case["stdout"]))
            got = answer(program, case)
            if case.get("uncounted"):
                got = (got[0], re.sub(rb"(?m)^instructions \d+$", b"instructions N", got[1]))
            if got == want:
                passed += 1
            else:
                failed += 1
                print(f"{os.path.basename(path)}: {case['says']}\n  want {want!r}\n  got  {got!r}")
    print(f"{passed} passed, {failed} failed")
    return 1 if failed or not passed else 0


sys.exit(main())
