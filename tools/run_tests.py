"""Runs the tests of a tool: functions whose names say what the tool does."""

import os
import re
import subprocess
import sys
import traceback

from orca_program import BUILT, TOP

PROGRAM = os.environ.get("ORCA_PROGRAM", BUILT)
TRANSCRIPT = re.compile(r"```text\n\$ (.*)\n((?:.*\n)*?)```")


def run_tests(tests, with_program):
    """Runs the tests, and those with the program where it stands; ends with the status."""
    passed = failed = 0
    if os.access(PROGRAM, os.X_OK):
        tests = tests + with_program
    elif with_program:
        print(f"left out: {len(with_program)} tests that want the program, since {PROGRAM} isn't there")
    for test in tests:
        try:
            test()
            passed += 1
        except Exception:
            failed += 1
            print(f"failed: {test.__name__}\n{traceback.format_exc()}")
    print(f"{passed} passed, {failed} failed")
    sys.exit(1 if failed else 0)


def check_transcripts(page, tool):
    """That the commands of a page in which the tool stands print what is shown there, with the program under test."""
    with open(os.path.join(TOP, "docs", page)) as file:
        shown = [found for found in TRANSCRIPT.findall(file.read()) if tool in found[0]]
    assert shown, f"{page} shows no command with {tool}"
    for command, text in shown:
        words = command.replace("./orca ", f"{PROGRAM} ").replace(tool, f"{sys.executable} {tool}")
        words += f" --program {PROGRAM}"
        printed = subprocess.run(words, shell=True, stdout=subprocess.PIPE, text=True, cwd=TOP).stdout
        assert printed == text, f"{command}\nshown\n{text}printed\n{printed}"
