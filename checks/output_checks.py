"""Checks what the program hands to the system and when: output that can't be written ends a call with status 7 and one line, no file
is put behind it, and what was printed before a file is put, or before a message, is out before it."""

import json
import os
import pathlib
import shutil
import subprocess
import sys
import tempfile
import time

import program

FIRST = "ping: pong 1 at 2000 ps\nping: pong 2 at 4000 ps\n"
REST = "ping: pong 3 at 6000 ps\nSimulation is complete, simulated time: 1000000 ps\n"
SAVED = ["run", "g.json", "--checkpoint-at=5ns"]


def many(folder):
    """A graph that prints some 600 kB."""
    ticker = {"name": "ticker", "type": "core.ticker", "params": {"clock": "1ns", "count": 20000}}
    (pathlib.Path(folder) / "many.json").write_text(json.dumps({"components": [ticker]}))


def to_full(folder, words):
    """The status and the error lines of a call whose output a full device takes, and the files that it put."""
    before = set(os.listdir(folder))
    with open("/dev/full", "wb") as full:
        ran = subprocess.run([str(program.PROGRAM)] + words, cwd=folder, stdout=full, stderr=subprocess.PIPE)
    return ran.returncode, ran.stderr.decode(), sorted(set(os.listdir(folder)) - before)


def in_one(folder, words):
    """The status of a call, and its output and error lines as they came."""
    ran = subprocess.run([str(program.PROGRAM)] + words, cwd=folder, stdout=subprocess.PIPE, stderr=subprocess.STDOUT)
    return ran.returncode, ran.stdout.decode()


def seen_before_put(folder):
    """What is in the output's file while a checkpoint is being put, and in the end: its file is a pipe that nobody reads yet."""
    pipe, out = os.path.join(folder, "checkpoint_5000.sstcpt"), os.path.join(folder, "out")
    os.mkfifo(pipe)
    with open(out, "wb") as to:
        running = subprocess.Popen([str(program.PROGRAM)] + SAVED, cwd=folder, stdout=to, stderr=subprocess.DEVNULL)
    until = time.monotonic() + 5
    while time.monotonic() < until and os.path.getsize(out) < len(FIRST):
        time.sleep(0.01)
    before = pathlib.Path(out).read_text()
    with open(pipe, "rb") as reader:
        reader.read()
    running.wait()
    return before, pathlib.Path(out).read_text()


def main():
    failed = 0
    with tempfile.TemporaryDirectory() as folder:
        shutil.copy(program.TOP / "examples" / "pingpong.json", os.path.join(folder, "g.json"))
        many(folder)
        fault = (7, "sst: write fault: output\n", [])
        lost = (7, FIRST + "sst: write fault: no/where_5000.sstcpt\n")
        rows = [
            ("a short output that can't be written", fault, to_full(folder, ["run", "g.json"])),
            ("a long output that can't be written", fault, to_full(folder, ["run", "many.json"])),
            ("statistics behind lost output", fault, to_full(folder, ["run", "g.json", "--stats=s.csv"])),
            ("a checkpoint behind lost output", fault, to_full(folder, SAVED)),
            ("a fault behind lost output", fault, to_full(folder, SAVED + ["--checkpoint-prefix=no/where"])),
            ("lines before a message", lost, in_one(folder, SAVED + ["--checkpoint-prefix=no/where"])),
            ("lines before a checkpoint", (FIRST, FIRST + REST), seen_before_put(folder)),
        ]
    for name, wanted, found in rows:
        if found != wanted:
            print("failed: %s\n  wanted %s\n  found  %s" % (name, wanted, found))
            failed += 1
    print("%s: %d ways of the output" % ("failed" if failed else "ok", len(rows)))
    return 1 if failed else 0


if __name__ == "__main__":
    sys.exit(main())
