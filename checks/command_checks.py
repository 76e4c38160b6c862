"""Checks that each row of checks/commands.json ends with its status and its line on the error output."""

import json
import pathlib
import shutil
import sys
import tempfile

import program

# What a row's folder has: a graph, and a checkpoint of a graph that is equal to it.
GIVEN = [("pingpong.json", "g.json"), ("checkpoint_5000.sstcpt", "c.sstcpt")]


def main():
    rows = json.loads((pathlib.Path(__file__).parent / "commands.json").read_text())
    failed = 0
    for row in rows:
        with tempfile.TemporaryDirectory() as folder:
            for given, name in GIVEN:
                shutil.copy(program.TOP / "examples" / given, pathlib.Path(folder) / name)
            status, out, err = program.run(row["words"], folder)
        if (status, err) != (row["status"], row["says"]) or (out == "") != (status != 0):
            print("failed: %s\n  wanted %s\n  found  %s" % (row["words"], (row["status"], row["says"]), (status, out, err)))
            failed += 1
    print("%s: %d command lines" % ("failed" if failed else "ok", len(rows)))
    return 1 if failed else 0


if __name__ == "__main__":
    sys.exit(main())
