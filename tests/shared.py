"""What the checks of the built program share: its path, and the libraries that make its calls fail."""

import os
import shutil
import subprocess
import sys

TESTS = os.path.dirname(os.path.realpath(__file__))
TOP = os.path.dirname(TESTS)
FIRST_PAGE = f"{TOP}/examples/first-page"
INCIDENTS = f"{TOP}/incidents"


def program_of(words, folder, name="check"):
    """Returns the path of the program that the words name, or of ./amreplay. Ends with a usage line if the words are others."""
    program = words[0] if words else f"{TOP}/amreplay"
    if len(words) > 1 or not os.path.isfile(program) or not os.access(program, os.X_OK):
        print(f"usage: tests/{folder}/{name} [PROGRAM]", file=sys.stderr)
        sys.exit(2)
    return os.path.realpath(program)


def preload_of(source, room):
    """Compiles a C file to a library that a program can preload, and returns its path, or None if there is no C compiler."""
    compiler = shutil.which("cc") or shutil.which("gcc") or shutil.which("clang")
    if not compiler:
        return None
    preload = f"{room}/preload.so"
    subprocess.run([compiler, "-O1", "-fPIC", "-shared", "-o", preload, source], check=True)
    return preload
