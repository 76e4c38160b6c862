"""Runs the program for the checks."""

import pathlib
import subprocess

TOP = pathlib.Path(__file__).resolve().parent.parent
PROGRAM = TOP / "crates" / "sst" / "out" / "sst"


def run(words, folder):
    """The status, the output and the error line of a call in a folder."""
    ran = subprocess.run([str(PROGRAM)] + words, cwd=folder, capture_output=True)
    return ran.returncode, ran.stdout.decode(), ran.stderr.decode().rstrip("\n")
